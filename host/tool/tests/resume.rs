//! Going on after a power loss, as a user meets it: real processes that are killed, and real files that lost their tails.
#![allow(missing_docs)]

mod common;

use common::{assert_said, file, folder, names, program, said, searched, small, write_journal};
use jinnychair::journal::{HostVersion, Recorded, StoredInputs};
use std::ffi::OsStr;
use std::fs;
use std::path::{Path, PathBuf};
use std::process::{Child, Command, Stdio};
use std::time::{Duration, Instant};
use tool::case::this_host;
use tool::journal::Journal;
use tool::synthetic::BUILT_IN;

/// The date of every output, so that the bytes of two searches can be compared.
const DATE: (&str, &str) = ("SOURCE_DATE_EPOCH", "1798761599");

fn dated(folder: &Path, words: &[impl AsRef<OsStr>]) -> Command {
    let mut command = program(folder, words);
    command.env(DATE.0, DATE.1).stdout(Stdio::null()).stderr(Stdio::null());
    command
}

/// What a search leaves behind.
fn outputs(folder: &Path) -> [String; 4] {
    ["night", "night.inputs", "tilts.csv", "tilts.svg"].map(|name| file(folder.join(name)))
}

/// A number of its own for each moment: SplitMix64.
struct Chance(u64);

impl Chance {
    fn below(&mut self, most: u64) -> u64 {
        self.0 = self.0.wrapping_add(0x9e37_79b9_7f4a_7c15);
        let mut z = self.0;
        z = (z ^ (z >> 30)).wrapping_mul(0xbf58_476d_1ce4_e5b9);
        z = (z ^ (z >> 27)).wrapping_mul(0x94d0_49bb_1331_11eb);
        (z ^ (z >> 31)) % most.max(1)
    }
}

/// How many of a torture's turns are taken: few in the gate, as many as `JINNYCHAIR_TORTURE` says elsewhere.
fn turns(few: usize) -> usize {
    let more = std::env::var("JINNYCHAIR_TORTURE").ok().and_then(|turns| turns.parse().ok());
    more.unwrap_or(few)
}

fn line_count(path: &Path) -> usize {
    fs::read(path).map_or(0, |bytes| bytes.iter().filter(|byte| **byte == b'\n').count())
}

/// Waits until a process has ended, or kills it (SIGKILL) once the moment has come; whether it ended by itself.
fn ended_before(child: &mut Child, mut has_come: impl FnMut() -> bool) -> bool {
    while !has_come() {
        if child.try_wait().unwrap().is_some() {
            return true;
        }
        std::thread::sleep(Duration::from_micros(200));
    }
    child.kill().unwrap();
    child.wait().unwrap();
    false
}

/// A search is killed at chance moments and gone on with until it ends; gives how many kills fell between its first and its
/// last line. The moments come after some time, also before the search has begun, or after some lines and a little time.
fn killed_until_it_ends(here: &Path, words: &[&str], lines: usize, turn: u64) -> usize {
    let (journal, mut chance, mut within) = (here.join("night"), Chance(turn), 0);
    let by_lines = turn.is_multiple_of(2);
    for kills in 0.. {
        let begun = here.join("night.inputs").exists();
        let words: &[&str] = if begun { &["resume", "night"] } else { words };
        let mut child = dated(here, words).spawn().unwrap();
        let started = Instant::now();
        let most = if by_lines { 2_000 } else { 100_000 };
        let time = Duration::from_micros(chance.below(most));
        let until = line_count(&journal) as u64 + chance.below(10);
        let has_come = || {
            // After many kills it may end in peace.
            let is_time = kills < 12 && started.elapsed() >= time;
            is_time && (!by_lines || line_count(&journal) as u64 > until)
        };
        if ended_before(&mut child, has_come) {
            assert_eq!(child.wait().unwrap().code(), Some(0));
            break;
        }
        within += usize::from((1..lines).contains(&line_count(&journal)));
    }
    within
}

#[test]
fn a_search_that_is_killed_again_and_again_ends_as_one_that_was_left_alone() {
    let words = small(&["--journal=night"]);
    let alone = folder("power-alone");
    assert!(dated(&alone, &words).status().unwrap().success());
    let (expected, report) = (outputs(&alone), said(&alone, &["report", "night"], 0));
    let lines = line_count(&alone.join("night"));
    let mut within = 0;
    for turn in 0..turns(4) {
        let here = folder("power-killed");
        within += killed_until_it_ends(&here, &words, lines, turn as u64);
        assert!(outputs(&here) == expected, "turn {turn}");
        assert_eq!(said(&here, &["report", "night"], 0), report);
    }
    assert!(within > 0, "no kill fell into a search");
}

/// A short search on one axis.
const SHORT: [&str; 6] = [
    "search",
    "--one-axis",
    "--tilts-x=-1deg,0",
    "--rounds=1",
    "--no-decomposition",
    "--journal=night",
];

#[test]
fn a_journal_that_lost_its_tail_at_any_byte_is_gone_on_with_to_the_same_bytes() {
    let alone = folder("tail-alone");
    dated(&alone, &SHORT).status().unwrap();
    let (whole, expected) = (fs::read(alone.join("night")).unwrap(), outputs(&alone));
    let ends: Vec<usize> = (0..=whole.len()).filter(|i| *i == 0 || whole[i - 1] == b'\n').collect();
    assert_eq!(ends.len(), 1 + 5);
    // Around each line's end, and from place to place.
    let few = |at: &usize| at.is_multiple_of(83) || ends.iter().any(|end| end.abs_diff(*at) < 2);
    let all = turns(0) > 0;
    let cuts: Vec<usize> = (0..=whole.len()).filter(|at| all || few(at)).collect();
    std::thread::scope(|scope| {
        for part in 0..2 {
            let (whole, expected, cuts) = (&whole, &expected, &cuts);
            scope.spawn(move || {
                let here = folder(&format!("tail-{part}"));
                for cut in cuts.iter().skip(part).step_by(2) {
                    fs::write(here.join("night"), &whole[..*cut]).unwrap();
                    fs::write(here.join("night.inputs"), &expected[1]).unwrap();
                    let status = dated(&here, &["resume", "night"]).status().unwrap();
                    assert_eq!(status.code(), Some(3), "cut at {cut}");
                    assert!(outputs(&here) == *expected, "cut at {cut}");
                }
            });
        }
    });
}

#[test]
fn what_was_kept_and_dropped_is_told() {
    let here = searched("resume-told");
    let whole = file(here.join("night"));
    let ends: Vec<usize> = whole.match_indices('\n').map(|(at, _)| at + 1).collect();
    for (cut, kept) in [
        (ends[30] + 77, "kept            night: 31 lines, "),
        (ends[30], "kept            night: 31 lines, "),
        (5, "kept            night: 0 lines, 0 bytes\n"),
        (whole.len(), "kept            night: 52 lines, "),
    ] {
        fs::write(here.join("night"), &whole[..cut]).unwrap();
        let line = 1 + ends.iter().filter(|end| **end <= cut).count();
        let rest = cut - ends.iter().rev().find(|end| **end <= cut).unwrap_or(&0);
        let dropped = match rest {
            0 => "dropped         nothing\n".into(),
            rest => format!("dropped         {rest} bytes: line {line} was being written"),
        };
        let told = ["views           the built-in plate", kept, &dropped, "verdict         good"];
        assert_said(&here, &["resume", "night"], 0, &told);
        assert_eq!(file(here.join("night")), whole);
    }
    assert_eq!(names(&here), ["night", "night.inputs", "tilts.csv", "tilts.svg"]);
    for (words, fault) in [
        (&["resume"][..], "no journal is named"),
        (&["resume", "night", "a", "b"], "what is `b`?"),
        (
            &["resume", "night", "--rounds=2"],
            "the options of the search are those that it began with",
        ),
        (&["resume", "night", "--minutes=0"], "--minutes: it isn't above 0"),
        (&["resume", "tilts.csv"], "tilts.csv is the table's or the chart's name"),
    ] {
        assert_said(&here, words, 2, &[fault]);
    }
    assert_said(&here, &["resume", "none"], 1, &["none: can't be read"]);
    assert_said(&here, &["resume", "--help"], 0, &["jinnychair resume JOURNAL [VIEWS]"]);
}

/// A search of views from a file, and its journal cut in the middle of a line.
fn cut_in_two(name: &str) -> (PathBuf, String) {
    let here = folder(name);
    fs::write(here.join("views.txt"), BUILT_IN.plate().text()).unwrap();
    let words = ["views.txt", "--centre=655", "470", "--centre-within=2", "--journal=night"];
    said(&here, &small(&words), 0);
    let whole = file(here.join("night"));
    fs::write(here.join("night"), &whole[..whole.len() / 2]).unwrap();
    (here, whole)
}

#[test]
fn only_the_views_that_it_began_with_are_taken() {
    let (here, whole) = cut_in_two("resume-views");
    let cut = file(here.join("night"));
    let mut other = BUILT_IN.plate();
    other.views[0].pixels[0].x += 0.001;
    fs::rename(here.join("views.txt"), here.join("moved.txt")).unwrap();
    fs::write(here.join("other.txt"), other.text()).unwrap();
    let sum = |name: &str| jinnychair::journal::sha256(file(here.join(name)).as_bytes());
    let told = [
        "other.txt: these aren't the views that the search began with: their SHA-256 is ",
        &sum("other.txt"),
        &format!("night.inputs has {}", sum("moved.txt")),
    ];
    assert_said(&here, &["resume", "night", "other.txt"], 1, &told);
    let told = ["views.txt: can't be read: ", "Name the views' file behind the journal"];
    assert_said(&here, &["resume", "night"], 1, &told);
    assert_eq!(file(here.join("night")), cut);
    // The limits and the centre's tolerance are those that the search began with.
    let centre = "±0.081° x, ±0.081° y for a centre within 2 px";
    assert_said(&here, &["resume", "night", "moved.txt"], 0, &["centre", centre]);
    assert_eq!(file(here.join("night")), whole);
    assert!(file(here.join("tilts.csv")).contains("\n# input: views.txt, 14 views, 980 dots\n"));
    // Views that lie beside the journal are found from elsewhere.
    fs::rename(here.join("moved.txt"), here.join("views.txt")).unwrap();
    fs::write(here.join("night"), &cut).unwrap();
    let elsewhere = folder("resume-elsewhere");
    said(&elsewhere, &[OsStr::new("resume"), here.join("night").as_os_str()], 0);
    assert_eq!(file(here.join("night")), whole);
    let built_in = searched("resume-built-in");
    let told = "views.txt: the search began with the built-in plate. Leave the views out";
    assert_said(&built_in, &["resume", "night", "views.txt"], 1, &[told]);
}

#[test]
fn another_hosts_journal_goes_on_only_aloud() {
    let here = searched("resume-host");
    let whole = file(here.join("night"));
    let mut stored = StoredInputs::load(&here.join("night")).unwrap();
    assert_eq!(stored.host, Some(this_host()));
    let refused =
        "another than without the break. Go on with the program that began it, or say --mixed-host";
    let host = HostVersion { name: "another".into(), version: "1".into() };
    for (host, named) in [(Some(host), "the host another 1"), (None, "a host that isn't named")] {
        stored.host = host;
        fs::write(here.join("night.inputs"), stored.text()).unwrap();
        fs::write(here.join("night"), &whole[..whole.len() / 2]).unwrap();
        let began = format!("the journal was begun by {named}, and ");
        assert_said(&here, &["resume", "night"], 1, &[&began, refused]);
        assert_eq!(file(here.join("night")), whole[..whole.len() / 2]);
        assert_said(&here, &["resume", "night", "--mixed-host"], 0, &[&began, "goes on with "]);
        assert_eq!(file(here.join("night")), whole);
        assert!(file(here.join("tilts.csv")).contains("\n# resumed: with another host, "));
        // A replay needs no host.
        said(&here, &["replay", "night"], 0);
    }
}

#[test]
fn a_journal_that_would_be_lost_is_not_touched() {
    let here = searched("resume-lost");
    let whole = file(here.join("night"));
    // Inputs of another search.
    said(&here, &["search", "--no-decomposition", "--rounds=0", "--journal=other"], 0);
    let own = file(here.join("night.inputs"));
    fs::copy(here.join("other.inputs"), here.join("night.inputs")).unwrap();
    let told = [
        "night: line 1: the seed's fx is ",
        "(30). Nothing of this journal would be left, so it isn't touched",
        "whether night.inputs are its own inputs",
    ];
    assert_said(&here, &["resume", "night"], 1, &told);
    assert_eq!(file(here.join("night")), whole);
    fs::write(here.join("night.inputs"), own.replace("rounds 5", "rounds 4")).unwrap();
    assert_said(&here, &["resume", "night"], 1, &["night.inputs: line ", "the file was changed"]);
    fs::remove_file(here.join("night.inputs")).unwrap();
    assert_said(&here, &["resume", "night"], 1, &["night.inputs: can't be read", "belongs beside"]);
    assert_eq!(file(here.join("night")), whole);
    // Switched off before it began: the search is started again.
    fs::write(here.join("night"), "").unwrap();
    let told = "night: its search was switched off before it began. Start it again: `jinnychair search --journal night`";
    assert_said(&here, &["resume", "night"], 1, &[told]);
    said(&here, &small(&["--journal=night"]), 0);
    assert_eq!(file(here.join("night")), whole);
}

#[test]
fn what_is_dropped_from_the_middle_is_kept_aside() {
    let here = searched("resume-dropped");
    let whole = file(here.join("night"));
    let mut lines = Journal::read(&here.join("night")).unwrap().lines;
    if let Recorded::Scored(fields) = &mut lines[20].outcome {
        fields.score += 1.0;
    }
    write_journal(&here.join("night"), &lines);
    let changed = file(here.join("night"));
    let kept: usize = whole.split_inclusive('\n').take(20).map(str::len).sum();
    let told = [
        "kept            night: 20 lines, ".into(),
        format!("dropped         {} bytes: line 21: the score is 1.", whole.len() - kept),
        "(30). They are in night.dropped".into(),
    ];
    assert_said(&here, &["resume", "night"], 0, &told.each_ref().map(String::as_str));
    assert_eq!(file(here.join("night")), whole);
    assert_eq!(file(here.join("night.dropped")), changed[kept..]);
    // It isn't written over.
    fs::write(here.join("night"), format!("{}x\n", &whole[..kept])).unwrap();
    let told = ["night.dropped: can't be written", "isn't dropped without it", "Move an older one"];
    assert_said(&here, &["resume", "night"], 1, &told);
    assert_eq!(file(here.join("night")), format!("{}x\n", &whole[..kept]));
    fs::remove_file(here.join("night.dropped")).unwrap();
    let told = "dropped         2 bytes: line 21: this isn't a line of a journal (29). They are in";
    assert_said(&here, &["resume", "night"], 0, &[told]);
    assert_eq!(file(here.join("night.dropped")), "x\n");
    assert_eq!(file(here.join("night")), whole);
    // More than a line's beginning is kept aside as well, and a file that another program changed isn't touched.
    fs::remove_file(here.join("night.dropped")).unwrap();
    let foreign = "x".repeat(300);
    fs::write(here.join("night"), format!("{}{foreign}", &whole[..kept])).unwrap();
    assert_said(
        &here,
        &["resume", "night"],
        0,
        &["dropped         300 bytes: line 21: this isn't"],
    );
    assert_eq!(
        (file(here.join("night.dropped")), file(here.join("night"))),
        (foreign, whole.clone())
    );
    for changed in [whole.replace('\n', "\r"), whole.replace('\n', "\r\n")] {
        fs::write(here.join("night"), &changed).unwrap();
        let told = ["night: line 1: its lines end with CR", "so it isn't touched"];
        assert_said(&here, &["resume", "night"], 1, &told);
        assert_eq!(file(here.join("night")), changed);
    }
}

#[test]
fn a_stopped_search_goes_on() {
    let here = folder("resume-stopped");
    said(&here, &small(&["--journal=whole"]), 0);
    said(&here, &small(&["--journal=night", "--minutes=1e-9"]), 3);
    assert_eq!(line_count(&here.join("night")), 1);
    let told =
        "stopped         by the time limit of 0.000000001 min, in round 0 of 5, with 2 of its 7";
    assert_said(&here, &["resume", "night", "--minutes=1e-9"], 3, &[told, "candidate 0 of 2"]);
    assert_said(&here, &["resume", "night"], 0, &["kept            night: 2 lines"]);
    assert_eq!(file(here.join("night")), file(here.join("whole")));
    // A run without a winner is over as well.
    let words = ["search", "--tilts-x=6deg", "--tilts-y=0", "--bound=5deg", "--no-decomposition"];
    said(&here, &[&words[..], &["--journal=none"]].concat(), 1);
    let told =
        ["none: 0 lines, 0 bytes", "no winner: the run ended and no candidate was scored (11)"];
    assert_said(&here, &["resume", "none"], 1, &told);
}

#[test]
fn another_version_or_computer_is_told() {
    let here = searched("resume-elsewhere-begun");
    fs::write(here.join("night"), "").unwrap();
    let mut inputs = StoredInputs::load(&here.join("night")).unwrap();
    inputs.library = "0.8.0".into();
    inputs.base.fx = f64::from_bits(inputs.base.fx.to_bits() + 1);
    inputs.save(&here.join("night")).unwrap();
    let told = [
        "version         the search began with jinnychair 0.8.0, and goes on with ",
        "computer        from the same views another base camera is worked out here",
    ];
    assert_said(&here, &["resume", "night"], 0, &told);
    assert!(file(here.join("tilts.csv")).contains("\n# resumed: with jinnychair "));
}

/// Sends a signal to a process.
fn signal(child: &Child, name: &str) {
    let words = ["-c".into(), format!("kill -{name} {}", child.id())];
    assert!(Command::new("sh").args(words).status().unwrap().success());
}

#[test]
fn a_second_process_may_read_a_journal_but_not_write_to_it() {
    let here = folder("resume-locked");
    let words = ["search", "--rounds=16", "--journal=night"];
    let mut child = dated(&here, &words).spawn().unwrap();
    let started = Instant::now();
    while line_count(&here.join("night")) == 0 && started.elapsed() < Duration::from_secs(60) {
        std::thread::sleep(Duration::from_micros(200));
    }
    // It stands still, and holds its journal.
    signal(&child, "STOP");
    let lines = line_count(&here.join("night"));
    assert!((1..190).contains(&lines) && child.try_wait().unwrap().is_none(), "{lines}");
    let told = "night: another process writes to this journal. Wait until it ends";
    assert_said(&here, &["resume", "night"], 1, &[told]);
    assert_said(&here, &["search", "--journal=night"], 1, &[told]);
    for command in ["show", "report", "chart"] {
        let output = program(&here, &[command, "night"]).output().unwrap();
        assert!(matches!(output.status.code(), Some(0 | 3)), "{command}");
    }
    assert_eq!(line_count(&here.join("night")), lines);
    child.kill().unwrap();
    child.wait().unwrap();
    said(&here, &["resume", "night"], 0);
    assert_eq!(line_count(&here.join("night")), 46 + 16 * 9);
}
