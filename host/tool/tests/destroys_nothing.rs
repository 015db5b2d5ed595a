//! What is written, as a user meets it: nothing is destroyed, and whether an output can be written is found before the search.
#![allow(missing_docs)]

mod common;

use common::{assert_said, file, folder, names, program, said, small};
use std::fs::{self, File};
use std::io::Read;
use std::os::unix::fs::{FileTypeExt, PermissionsExt, symlink};
use std::path::Path;
use std::process::{Command, Output, Stdio};
use tool::synthetic::BUILT_IN;
use tool::table::{self, Record};

fn output(here: &Path, words: &[&str]) -> Output {
    program(here, words).output().unwrap()
}

fn text(bytes: Vec<u8>) -> String {
    String::from_utf8(bytes).unwrap()
}

/// A folder with a table and its chart.
fn charted(name: &str) -> std::path::PathBuf {
    let here = folder(name);
    said(&here, &small(&[]), 0);
    here
}

#[test]
fn standard_output_takes_a_result_alone() {
    let here = charted("stdout");
    let chart = file(here.join("tilts.svg"));
    for name in ["-", "/dev/stdout", "/dev/fd/1", "/proc/self/fd/1"] {
        let ended = output(&here, &["chart", "tilts.csv", "--out", name]);
        assert_eq!((ended.status.code(), text(ended.stdout)), (Some(0), chart.clone()), "{name}");
        assert!(text(ended.stderr).contains("written: "));
    }
    let beside = output(&here, &["chart", "tilts.csv", "--out=/dev/stderr"]);
    assert!(text(beside.stderr).starts_with(&chart) && text(beside.stdout).contains("written:"));
    let ended = output(&here, &small(&["--table=-", "--chart=drawn.svg"]));
    let (table, told) = (text(ended.stdout), text(ended.stderr));
    assert!(Record::parse(&table).is_ok() && told.contains("verdict         good"), "{told}");
    assert!(here.join("drawn.svg").exists() && told.contains("written: standard output\n"));
    let views = output(&here, &["search", "--write-views", "-"]);
    assert_eq!(text(views.stdout), BUILT_IN.plate().text());
    said(&here, &small(&["--journal=night"]), 0);
    let page = text(output(&here, &["report", "night", "--page=-"]).stdout);
    assert!(page.starts_with("<!DOCTYPE html>") && page.ends_with("</html>\n"));
    // Two results don't go to one place.
    assert_said(&here, &small(&["--table=-", "--chart=-"]), 2, &["would both be standard output"]);
    assert_said(&here, &small(&["--out=-"]), 2, &["Name the table's with --table"]);
}

#[test]
fn a_file_that_standard_output_is_has_the_result_alone() {
    let here = charted("stdout-file");
    for name in ["/dev/stdout", "into", "/dev/fd/1"] {
        let into = File::create(here.join("into")).unwrap();
        let words = ["chart", "tilts.csv", "--out", name];
        let status = program(&here, &words).stdout(into).stderr(Stdio::null()).status().unwrap();
        assert!(status.success());
        assert_eq!(file(here.join("into")), file(here.join("tilts.svg")), "{name}");
    }
}

/// Makes a FIFO.
fn fifo(path: &Path) {
    assert!(Command::new("mkfifo").arg(path).status().unwrap().success());
}

#[test]
fn a_pipe_is_written_and_stays_whoever_comes_first() {
    let here = charted("fifo");
    let pipe = here.join("pipe");
    fifo(&pipe);
    let mut read = String::new();
    for is_reader_first in [true, false] {
        read.clear();
        let reader = {
            let pipe = pipe.clone();
            std::thread::spawn(move || {
                if !is_reader_first {
                    std::thread::sleep(std::time::Duration::from_millis(300));
                }
                let mut read = String::new();
                File::open(pipe).unwrap().read_to_string(&mut read).unwrap();
                read
            })
        };
        if is_reader_first {
            std::thread::sleep(std::time::Duration::from_millis(300));
        }
        assert_said(&here, &["chart", "tilts.csv", "--out=pipe"], 0, &["written: pipe"]);
        assert_eq!(reader.join().unwrap(), file(here.join("tilts.svg")));
        assert!(fs::metadata(&pipe).unwrap().file_type().is_fifo());
    }
}

#[test]
fn devices_are_written_as_they_are_and_stay() {
    let here = charted("devices");
    let is_device = |name: &str| fs::metadata(name).unwrap().file_type().is_char_device();
    said(&here, &["chart", "tilts.csv", "--out=/dev/null"], 0);
    said(&here, &small(&["--table=/dev/null", "--chart=/dev/null"]), 0);
    let told = "/dev/full: can't be written: No space left";
    assert_said(&here, &["chart", "tilts.csv", "--out=/dev/full"], 1, &[told]);
    symlink("/dev/full", here.join("full.csv")).unwrap();
    let told =
        ["verdict         good", "full.csv: can't be written: No space", "written: full.svg"];
    assert_said(&here, &small(&["--out=full"]), 1, &told);
    assert!(is_device("/dev/null") && is_device("/dev/full") && here.join("full.csv").is_symlink());
    // A name that is no plain file's would be two.
    let told = "--out /dev/null: this names two files. Name the table's with --table";
    assert_said(&here, &small(&["--out=/dev/null"]), 2, &[told]);
    assert!(!Path::new("/dev/null.csv").exists());
}

#[test]
fn whether_an_output_can_be_written_is_found_before_the_search() {
    let here = folder("before");
    fs::create_dir(here.join("taken.svg")).unwrap();
    fs::create_dir(here.join("folder")).unwrap();
    for (words, fault) in [
        (&["--out=missing/tilts"][..], "missing/tilts.csv: can't be written"),
        (&["--out=missing/"], "missing/tilts.csv: can't be written"),
        (&["--out=taken"], "taken.svg: can't be written: this is a folder's name"),
        (
            &["--table=folder/"],
            "folder/: can't be written: this is a folder's name. Name another place with --table",
        ),
        (
            &["--chart=folder"],
            "folder: can't be written: this is a folder's name. Name another place with --chart",
        ),
    ] {
        let told = said(&here, &small(words), 1);
        assert!(told.contains(fault) && !told.contains("what is tried"), "{told}");
        assert_eq!(names(&here), ["folder", "taken.svg"]);
    }
    // In a folder the names are the usual ones, and none is hidden.
    said(&here, &small(&["--out=folder/"]), 0);
    assert_eq!(names(&here.join("folder")), ["tilts.csv", "tilts.svg"]);
    said(&here.join("folder"), &small(&["--out=."]), 0);
    assert_eq!(names(&here), ["folder", "taken.svg"]);
    let words = small(&["--out=x", "--table=y", "--chart=z"]);
    assert_said(&here, &words, 2, &["--out: --table and --chart name both files"]);
    assert_said(&here, &small(&["--table="]), 2, &["--table: the name is empty"]);
    assert_said(&here, &small(&["--table=t", "--chart=./t"]), 2, &["would both be t"]);
}

#[test]
fn a_command_may_run_twice_and_nothing_else_is_written_over() {
    let here = charted("twice");
    said(&here, &small(&[]), 0);
    let mine = "number,round\n1,2\n";
    fs::write(here.join("tilts.csv"), mine).unwrap();
    let told = "tilts.csv: there is such a file, and this program didn't write it. --force writes over it; or name another with --out";
    let shown = said(&here, &small(&[]), 1);
    assert!(shown.contains(told) && !shown.contains("what is tried"), "{shown}");
    assert_eq!(file(here.join("tilts.csv")), mine);
    said(&here, &small(&["--force"]), 0);
    assert!(file(here.join("tilts.csv")).starts_with(table::HEAD));
    // A chart isn't a table's to write over, nor an empty file anybody's.
    let told = "tilts.svg: there is such a file, and this program didn't write it";
    assert_said(&here, &small(&["--table=tilts.svg", "--chart=c.svg"]), 1, &[told]);
    fs::write(here.join("empty"), "").unwrap();
    assert_said(&here, &["chart", "tilts.csv", "--out=empty"], 1, &["empty: there is such a file"]);
    // An input is never written over.
    let told = "tilts.csv: this is an input, and would be written over. Name another with --out";
    assert_said(&here, &["chart", "tilts.csv", "--out=tilts.csv", "--force"], 1, &[told]);
    assert!(names(&here).iter().all(|name| !name.starts_with('.')), "{:?}", names(&here));
}

#[test]
fn a_disk_without_room_leaves_the_older_file_and_nothing_else() {
    let here = charted("no-room");
    let before = [file(here.join("tilts.csv")), file(here.join("tilts.svg"))];
    let words = small(&[]);
    let program = program(&here, &words);
    let mut limited = Command::new("sh");
    // 4 KiB a file; the signal that comes with it is ignored.
    limited.args(["-c", "trap '' XFSZ; ulimit -f 8; exec \"$0\" \"$@\""]);
    limited.arg(program.get_program()).args(program.get_args()).current_dir(&here);
    let ended = limited.stdin(Stdio::null()).output().unwrap();
    let (shown, told) = (text(ended.stdout), text(ended.stderr));
    assert_eq!(ended.status.code(), Some(1), "{told}");
    assert!(shown.contains("verdict         good"), "{shown}");
    for name in ["tilts.csv", "tilts.svg"] {
        assert!(told.contains(&format!("{name}: can't be written: File too large")), "{told}");
    }
    assert_eq!([file(here.join("tilts.csv")), file(here.join("tilts.svg"))], before);
    assert_eq!(names(&here), ["tilts.csv", "tilts.svg"]);
}

#[test]
fn views_are_never_written_over() {
    let here = folder("views-kept");
    let words = ["search", "--write-views", "plate.txt"];
    said(&here, &words, 0);
    let edited = file(here.join("plate.txt")).replace("centre 655 470", "centre 650 475");
    fs::write(here.join("plate.txt"), &edited).unwrap();
    let told = "plate.txt: there is such a file. --force writes over it; or name another with --write-views";
    assert_said(&here, &words, 1, &[told]);
    assert_eq!(file(here.join("plate.txt")), edited);
    said(&here, &[&words[..], &["--force"]].concat(), 0);
    assert_eq!(file(here.join("plate.txt")), BUILT_IN.plate().text());
}

#[test]
fn links_are_followed_and_a_file_keeps_its_rights() {
    let here = charted("links");
    fs::create_dir(here.join("archive")).unwrap();
    fs::rename(here.join("tilts.svg"), here.join("archive/one.svg")).unwrap();
    symlink("archive/one.svg", here.join("tilts.svg")).unwrap();
    symlink("archive/new.csv", here.join("fresh.csv")).unwrap();
    fs::set_permissions(here.join("archive/one.svg"), fs::Permissions::from_mode(0o640)).unwrap();
    said(&here, &["chart", "tilts.csv"], 0);
    said(&here, &small(&["--table=fresh.csv", "--chart=other.svg"]), 0);
    assert!(here.join("tilts.svg").is_symlink() && here.join("fresh.csv").is_symlink());
    assert!(file(here.join("archive/new.csv")).starts_with(table::HEAD));
    let mode = fs::metadata(here.join("archive/one.svg")).unwrap().permissions().mode();
    assert_eq!(mode & 0o777, 0o640);
    assert_eq!(names(&here.join("archive")), ["new.csv", "one.svg"]);
}

#[test]
fn a_closed_pipe_ends_quietly() {
    let here = charted("closed");
    said(&here, &small(&["--journal=night"]), 0);
    for words in [
        &["show", "night"][..],
        &["report", "night"],
        &["search", "--help"],
        &["chart", "tilts.csv", "--out=-"],
        &small(&["--table=-", "--chart=c.svg"]),
    ] {
        let mut child =
            program(&here, words).stdout(Stdio::piped()).stderr(Stdio::piped()).spawn().unwrap();
        drop(child.stdout.take());
        let ended = child.wait_with_output().unwrap();
        let told = text(ended.stderr);
        assert_eq!(ended.status.code(), Some(0), "{words:?}: {told}");
        assert!(!told.contains("jinnychair:") && !told.contains("panicked"), "{told}");
    }
    // A disk without room is reported.
    let full = File::options().write(true).open("/dev/full").unwrap();
    let ended = program(&here, &["show", "night"]).stdout(full).output().unwrap();
    assert_eq!(ended.status.code(), Some(1));
    assert!(
        text(ended.stderr).contains("standard output: not everything could be shown: No space")
    );
}
