//! What is read, as a user meets it: a journal is believed only after it is run again, and a file that isn't what it should be is
//! called what it is.
#![allow(missing_docs)]

mod common;

use common::{assert_said, file, folder, names, program, said, searched, small, write_journal};
use jinnychair::journal::{Line, Recorded};
use std::ffi::{OsStr, OsString};
use std::fs;
use std::os::unix::ffi::{OsStrExt, OsStringExt};
use std::path::Path;
use std::process::{Command, Stdio};
use tool::journal::Journal;
use tool::synthetic::BUILT_IN;

/// The commands that show a journal.
const SHOWING: [&[&str]; 4] = [
    &["report", "night"],
    &["report", "night", "--stretches=1-9,10-52"],
    &["show", "night"],
    &["chart", "night"],
];

fn lines(here: &Path) -> Vec<Line> {
    Journal::read(&here.join("night")).unwrap().lines
}

/// A journal in which another tilt than the winner has the lowest score.
fn with_a_changed_score(here: &Path) -> Vec<Line> {
    let mut lines = lines(here);
    let Recorded::Scored(fields) = &mut lines[5].outcome else { unreachable!("it was scored") };
    fields.score = 1e-3;
    lines
}

/// Each command refuses the journal with this fault and shows nothing of it; with `--unchecked` it is shown, and marked.
fn assert_not_believed(here: &Path, fault: &str) {
    for words in SHOWING {
        let told = said(here, words, 1);
        assert!(
            told.contains(fault) && told.contains("--unchecked shows it all the same"),
            "{told}"
        );
        for shown in ["winners", "report   ", "number  round", "written:"] {
            assert!(!told.contains(shown), "{told}");
        }
        assert!(!here.join("night.svg").exists());
    }
    for words in SHOWING {
        let words = [words, &["--unchecked"]].concat();
        assert_said(here, &words, 3, &["UNCHECKED: not the run's from line"]);
    }
    let chart = file(here.join("night.svg"));
    assert!(chart.contains("WARNING: UNCHECKED: not the run's from line"), "{chart}");
    let table = said(here, &["show", "night", "--unchecked"], 3);
    assert!(table.starts_with("UNCHECKED: not the run's from line"), "{table}");
    fs::remove_file(here.join("night.svg")).unwrap();
}

#[test]
fn a_changed_score_names_no_winner() {
    let here = searched("believe-score");
    let changed = with_a_changed_score(&here);
    write_journal(&here.join("night"), &changed);
    assert_not_believed(
        &here,
        "night: not the run's from line 6 on: the score is 0.001; the line's own numbers give 0.3",
    );
    let told = "night: no page is made of such a journal";
    let words = ["report", "night", "--unchecked", "--page=night.html"];
    assert_said(&here, &words, 1, &[told]);
    assert!(!here.join("night.html").exists());
}

#[test]
fn a_doubled_line_is_not_counted() {
    let here = searched("believe-doubled");
    let lines = lines(&here);
    write_journal(&here.join("night"), &[&lines[..], &lines[51..]].concat());
    assert_not_believed(
        &here,
        "night: not the run's from line 53 on: the run was over before this line (30)",
    );
    write_journal(&here.join("night"), &[&lines[..8], &lines[7..]].concat());
    assert_not_believed(
        &here,
        "night: not the run's from line 9 on: the line's number is 7; the next candidate is no. 8",
    );
}

#[test]
fn inputs_of_another_journal_are_told() {
    let here = searched("believe-inputs");
    said(&here, &["search", "--no-decomposition", "--rounds=0", "--journal=other"], 0);
    fs::copy(here.join("other.inputs"), here.join("night.inputs")).unwrap();
    assert_not_believed(&here, "night: not the run's from line 1 on: the seed's ");
}

#[test]
fn what_is_the_runs_is_said_and_what_is_left_of_it() {
    let here = searched("believe-run");
    let lines = lines(&here);
    let told = "checked         the run's: run again from night.inputs, bit by bit";
    for words in SHOWING {
        assert_said(&here, words, 0, &[told]);
    }
    assert!(!file(here.join("night.svg")).contains("UNCHECKED"));
    write_journal(&here.join("night"), &lines[..9]);
    let told = [
        "checked         the run's, and unfinished: in round 1 of 5, with 2 of its 9 tilts tried; 4 rounds follow",
        "to do           `jinnychair resume night` goes on with it",
    ];
    for words in SHOWING {
        assert_said(&here, words, 3, &told);
    }
    let chart = file(here.join("night.svg"));
    assert!(
        chart.contains("by the end of the journal, in round 1 of 5")
            && chart.contains("Best so far"),
        "{chart}"
    );
    // Nothing was tried yet.
    fs::write(here.join("night"), "").unwrap();
    assert_said(
        &here,
        &["report", "night"],
        3,
        &["unfinished: in round 0 of 5, with 0 of its 7 tilts"],
    );
}

#[test]
fn without_its_inputs_a_journal_is_doubtful() {
    let here = searched("believe-without");
    for (name, told) in [
        ("missing", "couldn't be run again: night.inputs: there is no such file"),
        ("damaged", "couldn't be run again: night.inputs: line 1: read `jinnychair inputs 0`"),
    ] {
        match name {
            "missing" => fs::remove_file(here.join("night.inputs")).unwrap(),
            _ => fs::write(here.join("night.inputs"), "jinnychair inputs 0\n").unwrap(),
        }
        for words in SHOWING {
            assert_said(&here, words, 3, &[told, "UNCHECKED"]);
        }
        assert!(
            file(here.join("night.svg")).contains("WARNING: UNCHECKED: it couldn't be run again")
        );
    }
    // What isn't a line needs no inputs to be named.
    fs::write(here.join("night"), "x\n").unwrap();
    assert_said(
        &here,
        &["report", "night"],
        1,
        &["night: not the run's from line 1 on: this isn't a line"],
    );
}

#[test]
fn compare_says_of_each_whether_it_is_its_runs() {
    let here = searched("believe-compare");
    fs::copy(here.join("night.inputs"), here.join("day.inputs")).unwrap();
    fs::copy(here.join("night"), here.join("day")).unwrap();
    let told = [
        "night           the run's: run again",
        "day             the run's: run again",
        "the same, bit by bit",
    ];
    assert_said(&here, &["compare", "night", "day"], 0, &told);
    write_journal(&here.join("day"), &with_a_changed_score(&here));
    let told = [
        "day             UNCHECKED: not the run's from line 6 on: the score is",
        "they part first in line 6",
    ];
    assert_said(&here, &["compare", "night", "day"], 3, &told);
    // The same, and both of them forged.
    fs::copy(here.join("day"), here.join("night")).unwrap();
    assert_said(&here, &["compare", "night", "day"], 3, &["the same, bit by bit", "UNCHECKED"]);
}

#[test]
fn what_another_program_did_to_a_file_is_named() {
    let here = searched("changed-files");
    let (journal, inputs) = (file(here.join("night")), file(here.join("night.inputs")));
    for (change, why, remedy) in [
        (
            "crlf",
            "lines end with CR LF, so another program or a transfer as text changed it",
            "`tr -d '\\r' < FILE > NEW` takes that back",
        ),
        (
            "bom",
            "begins with a byte order mark (BOM), so another program saved it",
            "Take the one that the search wrote",
        ),
        (
            "cr",
            "lines end with CR alone, so another program saved it",
            "`tr '\\r' '\\n' < FILE > NEW` takes that back",
        ),
    ] {
        let changed = |text: &str| match change {
            "crlf" => text.replace('\n', "\r\n"),
            "bom" => format!("\u{feff}{text}"),
            _ => text.replace('\n', "\r"),
        };
        fs::write(here.join("night"), changed(&journal)).unwrap();
        for words in [
            &["report", "night"][..],
            &["show", "night"],
            &["chart", "night"],
            &["replay", "night"],
            &["resume", "night"],
        ] {
            assert_said(&here, words, 1, &["line 1", why, "(29)"]);
        }
        assert_said(&here, &["show", "night"], 1, &[remedy]);
        fs::write(here.join("night"), &journal).unwrap();
        fs::write(here.join("night.inputs"), changed(&inputs)).unwrap();
        assert_said(&here, &["replay", "night"], 1, &["night.inputs: ", why, remedy]);
        assert_said(&here, &["report", "night"], 3, &["night.inputs: ", why, remedy]);
        fs::write(here.join("night.inputs"), &inputs).unwrap();
    }
    assert_said(&here, &["report", "night"], 0, &[]);
}

#[test]
fn files_of_other_programs_are_called_what_they_are() {
    let here = folder("foreign");
    let photographs = "`python -m jinnychair photographs";
    for (bytes, told, reads) in [
        (&b"\x89PNG\r\n\x1a\n\0\0\0\rIHDR"[..], "this is a PNG picture", photographs),
        (b"\xff\xd8\xff\xe0\0\x10JFIF", "this is a JPEG picture", photographs),
        (b"%PDF-1.7\n%\xe2\xe3", "this is a PDF document", "Save the numbers in it as text"),
        (b"%YAML:1.0\n---\nviews:\n", "this is a YAML file", "`python -m jinnychair convert"),
        (
            b"<?xml version=\"1.0\"?>\n<opencv_storage>\n",
            "this is an XML file",
            "`python -m jinnychair convert",
        ),
    ] {
        fs::write(here.join("views"), bytes).unwrap();
        assert_said(&here, &["search", "views"], 1, &[told, reads]);
        assert_eq!(names(&here), ["views"]);
    }
}

#[test]
fn text_of_every_kind_is_read_and_shown_short() {
    let here = folder("text-kinds");
    let views = BUILT_IN.plate().text();
    for text in
        [views.replace('\n', "\r"), views.replace('-', "\u{2212}"), views.replace('\n', "\r\n")]
    {
        fs::write(here.join("views.txt"), text).unwrap();
        said(&here, &small(&["views.txt"]), 0);
    }
    fs::write(
        here.join("lab.txt"),
        "tilts-x \u{2212}2deg,\u{2212}1deg, 0\rtilts-y -1deg,0\rrounds 5\rstep 0.5deg\r",
    )
    .unwrap();
    let by_file = said(&here, &["search", "views.txt", "--options=lab.txt", "--force"], 0);
    let by_words = said(&here, &small(&["views.txt"]), 0);
    // The time that is left may be shown differently.
    let without_progress = |text: &str| -> Vec<String> {
        text.lines().filter(|line| !line.starts_with("round ")).map(String::from).collect()
    };
    assert_eq!(without_progress(&by_file), without_progress(&by_words));
    assert_said(
        &here,
        &small(&["--centre", "\u{2212}655", "470"]),
        3,
        &["centre          -655 470 px"],
    );
    fs::write(here.join("views.txt"), format!("view\n{}\u{1b}[2J\n", "7".repeat(3_000_000)))
        .unwrap();
    let told = said(&here, &["search", "views.txt"], 1);
    assert!(told.len() < 500 && told.contains("(3000004 letters)"), "{}", told.len());
    fs::write(here.join("views.txt"), "view\n\u{1b}[2J 1 2 3\n").unwrap();
    assert_said(&here, &["search", "views.txt"], 1, &["line 2: read `\\u{1b}[2J 1 2 3`"]);
    let control = OsStr::from_bytes(b"no\x1b[2Jfile\xff");
    let told = said(&here, &[OsStr::new("search"), control], 1);
    assert!(!told.contains('\u{1b}') && told.contains("no\\u{1b}[2Jfile"), "{told}");
}

#[test]
fn a_name_that_is_no_text_is_found_again() {
    let here = folder("no-utf8");
    let name = OsString::from_vec(b"caf\xe9\n1.txt".to_vec());
    fs::write(here.join(&name), BUILT_IN.plate().text()).unwrap();
    let mut words: Vec<OsString> =
        small(&["--minutes=1e-9", "--journal=night"]).iter().map(OsString::from).collect();
    words.insert(1, name.clone());
    assert_said(&here, &words, 3, &["`jinnychair resume night` goes on with it"]);
    assert!(file(here.join("night.inputs")).contains("\nviews-from file caf\\xe9\\x0a1.txt\n"));
    assert_said(
        &here,
        &["resume", "night", "--minutes=1e9"],
        0,
        &["views           caf\\xe9\\x0a1.txt: those that the search began"],
    );
    // Where both were moved, too.
    let moved = folder("no-utf8-moved");
    fs::create_dir(moved.join("below")).unwrap();
    for name in [name.as_os_str(), OsStr::new("night"), OsStr::new("night.inputs")] {
        fs::rename(here.join(name), moved.join("below").join(name)).unwrap();
    }
    said(&moved, &["report", "below/night", "--page=night.html"], 0);
}

#[test]
fn ctrl_c_shows_the_best_so_far_and_says_how_to_go_on() {
    let alone = folder("interrupt-alone");
    let words = [
        "search",
        "--tilts-x=-8deg,-7deg,-6deg,-5deg,-4deg,-3deg,-2deg,-1deg,0,1deg,2deg,3deg,4deg,5deg,6deg,7deg",
        "--tilts-y=-8deg,-7deg,-6deg,-5deg,-4deg,-3deg,-2deg,-1deg,0,1deg,2deg,3deg,4deg,5deg,6deg,7deg",
        "--rounds=16",
    ];
    let dated = |here: &Path, words: &[&str]| {
        let mut command = program(here, words);
        command
            .env("SOURCE_DATE_EPOCH", "1798761599")
            .stdout(Stdio::piped())
            .stderr(Stdio::piped());
        command
    };
    let with_journal = [&words[..], &["--journal=night"]].concat();
    let code = dated(&alone, &with_journal).output().unwrap().status.code();
    let here = folder("interrupt");
    // Where the tests run in the background, Ctrl-C is ignored, and the program would leave it so.
    let mut interruptible = Command::new("env");
    interruptible
        .args(["--default-signal=INT", env!("CARGO_BIN_EXE_jinnychair")])
        .args(&with_journal)
        .current_dir(&here)
        .env("SOURCE_DATE_EPOCH", "1798761599")
        .stdin(Stdio::null())
        .stdout(Stdio::piped())
        .stderr(Stdio::piped());
    let child = interruptible.spawn().unwrap();
    // A shell that waits for the end of its input: on a busy machine a search may be over before another program has started.
    let interrupt = format!("read -r line; kill -INT {}", child.id());
    let mut shell =
        Command::new("sh").args(["-c", &interrupt]).stdin(Stdio::piped()).spawn().unwrap();
    while fs::metadata(here.join("night")).map_or(0, |about| about.len()) == 0 {
        std::thread::yield_now();
    }
    drop(shell.stdin.take());
    assert!(shell.wait().unwrap().success());
    let ended = child.wait_with_output().unwrap();
    let told = String::from_utf8(ended.stdout).unwrap();
    assert_eq!(ended.status.code(), Some(3), "{told}");
    for part in [
        "stopped         by Ctrl-C, in round ",
        "best so far     candidate",
        "to do           `jinnychair resume night` goes on with it",
    ] {
        assert!(told.contains(part), "{told}");
    }
    assert_eq!(dated(&here, &["resume", "night"]).output().unwrap().status.code(), code);
    for name in ["night", "tilts.csv", "tilts.svg"] {
        assert_eq!(file(here.join(name)), file(alone.join(name)), "{name}");
    }
}

#[test]
fn where_no_camera_fits_the_bad_view_is_named() {
    let here = folder("bad-view");
    let mut plate = BUILT_IN.plate();
    plate.views[4].pixels.rotate_left(17);
    plate.views[4].pixels.swap(0, 35);
    fs::write(here.join("views.txt"), plate.text()).unwrap();
    let told = said(&here, &small(&["views.txt"]), 1);
    assert!(told.contains("no winner") && told.contains("The dots of view 5 ("), "{told}");
    assert!(told.contains("Look whether each place stands beside its own pixel"), "{told}");
}
