//! The program, run as a user runs it.
#![allow(dead_code, reason = "each file of tests uses some of these")]

use jinnychair::journal::{Line, write_line};
use std::ffi::OsStr;
use std::fs;
use std::path::{Path, PathBuf};
use std::process::{Command, Stdio};

/// An empty folder of a test's own, below the one that cargo gives to tests.
pub fn folder(name: &str) -> PathBuf {
    let folder = Path::new(env!("CARGO_TARGET_TMPDIR")).join("program").join(name);
    let _ = fs::remove_dir_all(&folder);
    fs::create_dir_all(&folder).unwrap();
    folder
}

pub fn program(folder: &Path, words: &[impl AsRef<OsStr>]) -> Command {
    let mut command = Command::new(env!("CARGO_BIN_EXE_jinnychair"));
    command.args(words).current_dir(folder).stdin(Stdio::null());
    command
}

/// What the program says, on standard output and then beside it; it must end with this code.
#[track_caller]
pub fn said(folder: &Path, words: &[impl AsRef<OsStr>], code: i32) -> String {
    let output = program(folder, words).output().unwrap();
    let text = [output.stdout, output.stderr].map(|text| String::from_utf8(text).unwrap()).concat();
    assert_eq!(output.status.code(), Some(code), "{text}");
    assert!(!text.contains("panicked"), "{text}");
    text
}

#[track_caller]
pub fn assert_said(folder: &Path, words: &[impl AsRef<OsStr>], code: i32, expected: &[&str]) {
    let text = said(folder, words, code);
    for part in expected {
        assert!(text.contains(part), "`{part}` isn't in:\n{text}");
    }
}

pub fn file(path: impl AsRef<Path>) -> String {
    fs::read_to_string(path).unwrap()
}

pub fn names(folder: &Path) -> Vec<String> {
    let mut names: Vec<_> = fs::read_dir(folder)
        .unwrap()
        .map(|entry| entry.unwrap().file_name().into_string().unwrap())
        .collect();
    names.sort();
    names
}

/// A grid that is small, so that a search takes little time.
pub const SMALL: [&str; 4] =
    ["--tilts-x=-2deg,-1deg,0", "--tilts-y=-1deg,0", "--rounds=5", "--step=0.5deg"];

pub fn small<'a>(words: &[&'a str]) -> Vec<&'a str> {
    [&["search"], words, &SMALL].concat()
}

/// A search with a journal, `night`, in an empty folder.
pub fn searched(name: &str) -> PathBuf {
    let here = folder(name);
    said(&here, &small(&["--journal=night"]), 0);
    here
}

/// Writes lines as a journal.
pub fn write_journal(path: &Path, lines: &[Line]) {
    let mut bytes = vec![];
    for line in lines {
        let mut buffer = [0; 256];
        let len = write_line(line, &mut buffer).unwrap();
        bytes.extend(&buffer[..len]);
    }
    fs::write(path, bytes).unwrap();
}
