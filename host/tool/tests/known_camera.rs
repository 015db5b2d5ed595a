//! The program's check of the camera formula.
#![allow(missing_docs)]

use std::process::{Command, Output};

fn known_camera(words: &[&str]) -> Output {
    let program = env!("CARGO_BIN_EXE_jinnychair");
    Command::new(program).arg("known-camera").args(words).output().unwrap()
}

#[test]
fn shows_the_six_numbers_and_the_same_camera() {
    let output = known_camera(&["800", "808", "-320", "-0"]);
    assert!(output.status.success());
    let expected = "\
chosen camera   fx 800  fy 808  cx -320  cy -0
six numbers     b11 40804  b12 0  b22 40000  b13 13057280  b23 0  b33 30292889600
camera back     fx 800  fy 808  cx -320  cy 0
the same camera
";
    assert_eq!(String::from_utf8(output.stdout).unwrap(), expected);
}

#[test]
fn refuses_with_cause_and_remedy() {
    for words in [["512", "1", "0", "0"], ["800.5", "808", "0", "0"], ["NaN", "8", "0", "inf"]] {
        let output = known_camera(&words);
        assert!(output.status.code() == Some(1) && output.stdout.is_empty());
        let message = String::from_utf8(output.stderr).unwrap();
        assert!(message.contains("(34)") && message.contains("800, 808, 640, −480"), "{message}");
    }
}

#[test]
fn takes_four_numbers() {
    for words in [&["800", "808", "0"][..], &["800", "808", "0", "x"], &["1", "1", "0", "0", "0"]] {
        let output = known_camera(words);
        assert_eq!(output.status.code(), Some(2));
        assert!(String::from_utf8(output.stderr).unwrap().contains("takes four numbers"));
    }
}
