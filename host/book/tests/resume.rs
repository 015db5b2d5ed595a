//! Going on from a journal, by docs/SPECIFICATION.md, 8.9.
#![allow(missing_docs)]

mod common;

use book::{EndedBy, Inputs, Outcome, Resumed, resume};
use common::{bytes, go_on, inputs, run};

/// The resumed run with its list, which was all 7 before.
fn resumed(inputs: Inputs, journal: &[u8]) -> (Resumed, Vec<f64>) {
    let mut lent = vec![7.0; 60];
    (resume(inputs, journal, &mut lent).unwrap(), lent)
}

/// Lines, kept and dropped bytes, and what ended them.
fn report(journal: &[u8]) -> (usize, usize, usize, EndedBy) {
    let (resumed, _) = resumed(inputs(), journal);
    assert_eq!(resumed.book.entries().len(), resumed.lines);
    assert!(resumed.book.waiting().is_none());
    (resumed.lines, resumed.kept, resumed.dropped, resumed.ended_by)
}

#[test]
fn a_cut_after_any_byte_loses_only_its_line_and_the_run_ends_as_the_uncut_one() {
    let book = run(inputs());
    let journal = bytes(book.entries());
    for cut in 0..=journal.len() {
        let (mut resumed, mut lent) = resumed(inputs(), &journal[..cut]);
        let front = &journal[..cut];
        let lines = front.iter().filter(|byte| **byte == b'\n').count();
        let kept = front.iter().rposition(|byte| *byte == b'\n').map_or(0, |last| last + 1);
        let ended_by = if kept == cut { EndedBy::Nothing } else { EndedBy::MissingNewline };
        assert_eq!((resumed.lines, resumed.kept, resumed.ended_by), (lines, kept, ended_by));
        assert_eq!(resumed.dropped, cut - kept);
        assert_eq!(bytes(resumed.book.entries()), &journal[..kept]);
        go_on(&mut resumed.book, &mut lent);
        assert_eq!(bytes(resumed.book.entries()), journal);
        assert_eq!(resumed.book.result(), book.result());
        assert_eq!(resumed.book.counts(), book.counts());
    }
}

#[test]
fn the_missing_newline_is_looked_for_first_where_the_walk_stands() {
    let book = run(inputs());
    let whole = bytes(book.entries());
    let line = bytes(&book.entries()[..1]);
    assert_eq!(report(b"x\n0,0"), (0, 0, 5, EndedBy::Number(29)));
    assert_eq!(report(b"x"), (0, 0, 1, EndedBy::MissingNewline));
    assert_eq!(report(b""), (0, 0, 0, EndedBy::Nothing));
    assert_eq!(report(&[0; 9]), (0, 0, 9, EndedBy::MissingNewline));
    let len = line.len();
    let twice = [&line[..], &line, b"x"].concat();
    assert_eq!(report(&twice), (1, len, len + 1, EndedBy::Number(30)));
    // Behind the end of the run.
    let all = whole.len();
    let followed_by = |end: &[u8]| report(&[&whole[..], end].concat());
    assert_eq!(followed_by(b""), (12, all, 0, EndedBy::Nothing));
    assert_eq!(followed_by(&line[..9]), (12, all, 9, EndedBy::MissingNewline));
    assert_eq!(followed_by(&line), (12, all, len, EndedBy::Number(30)));
    assert_eq!(followed_by(b"\n"), (12, all, 1, EndedBy::Number(29)));
}

#[test]
fn a_run_that_has_no_winner_is_given_back() {
    let mut entries = run(inputs()).entries()[..3].to_vec();
    for entry in &mut entries {
        entry.outcome = Outcome::Skipped(1);
    }
    let (resumed, _) = resumed(inputs(), &bytes(&entries));
    assert_eq!((resumed.lines, resumed.ended_by), (3, EndedBy::Nothing));
    assert_eq!((resumed.book.is_over(), resumed.book.result()), (true, Err(11)));
}

#[test]
fn the_inputs_are_refused_first_and_leave_the_list() {
    let mut lent = [7.0; 60];
    let refused = |change: fn(&mut Inputs), lent: &mut [f64]| {
        let mut inputs = inputs();
        change(&mut inputs);
        resume(inputs, b"x\n", lent).unwrap_err()
    };
    assert_eq!(refused(|i| i.tilt_x_seeds.clear(), &mut lent), 2);
    assert_eq!(refused(|i| i.max_abs_tilt = 0.6, &mut lent), 27);
    assert_eq!(refused(|_| (), &mut lent[..53]), 8);
    assert_eq!(lent, [7.0; 60]);
}

#[test]
fn the_best_of_the_round_is_kept_in_mid_round() {
    // It decides the next list, though the run's best is another.
    let (resumed, _) = resumed(inputs(), &bytes(&run(inputs()).entries()[..7]));
    let best = resumed.book.round_best().map(|best| best.number);
    assert_eq!((resumed.book.round(), resumed.book.position(), best), (1, 4, Some(4)));
    assert_eq!(resumed.book.run_best().map(|best| best.number), Some(2));
}
