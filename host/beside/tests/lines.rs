//! Lines and reports with any numbers, written and read on both sides, whole and damaged. `agree.rs` has those of whole runs.
#![allow(missing_docs)]

use beside::lines::{LineTally, write_and_read};
use beside::reports::compare_drawn;
use random::Random;

#[test]
fn every_line_is_written_and_read_as_the_book_does() {
    let mut random = Random::named("lines");
    let mut tally = LineTally::default();
    for i in 0..20_000 {
        write_and_read(&mut random, &mut tally).unwrap_or_else(|fault| panic!("line {i}: {fault}"));
    }
    assert!(tally.written.iter().all(|&times| times > 1000), "{tally:?}");
    assert!(tally.read.iter().all(|&times| times > 1000), "{tally:?}");
}

#[test]
fn every_report_is_written_as_the_book_does() {
    let mut random = Random::named("reports");
    let mut written = [0; 2];
    for i in 0..5000 {
        let is_written =
            compare_drawn(&mut random).unwrap_or_else(|fault| panic!("report {i}: {fault}"));
        written[usize::from(is_written)] += 1;
    }
    assert!(written.iter().all(|&times| times > 1000), "{written:?}");
}
