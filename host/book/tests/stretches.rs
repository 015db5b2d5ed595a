//! Winners of stretches, by docs/SPECIFICATION.md, 10.1.
#![allow(missing_docs)]

mod common;

use book::{Entry, Inputs, Outcome, Winner, stretch_winner, winner_of};
use common::{inputs, run};

/// A run's entries with these scores in their order; none for a skipped one.
fn entries(scores: &[Option<f64>]) -> Vec<Entry> {
    let book = run(inputs());
    let Some(Outcome::Scored(scored)) = book.entries().first().map(|entry| entry.outcome) else {
        panic!("it is scored");
    };
    let outcome = |score: Option<f64>| match score {
        Some(score) => Outcome::Scored(book::Scored { score, ..scored }),
        None => Outcome::Skipped(1),
    };
    let pairs = book.entries().iter().zip(scores);
    pairs.map(|(entry, score)| Entry { outcome: outcome(*score), ..*entry }).collect()
}

fn number(winner: Option<Winner>) -> Option<usize> {
    winner.map(|winner| winner.number)
}

/// Every way of cutting them into three stretches, some of them empty, grouped in both ways.
fn cut_anywhere(entries: &[Entry]) {
    let whole = stretch_winner(entries);
    for second in 0..=entries.len() {
        for first in 0..=second {
            let stretches = [&entries[..first], &entries[first..second], &entries[second..]];
            let [a, b, c] = stretches.map(stretch_winner);
            assert_eq!(winner_of(&[a, b, c]), whole);
            assert_eq!(winner_of(&[winner_of(&[a, b]), c]), whole);
            assert_eq!(winner_of(&[a, winner_of(&[b, c])]), whole);
        }
    }
}

#[test]
fn the_winner_of_the_stretches_winners_is_the_runs() {
    let all = entries(&[Some(5.0), None, Some(3.0), Some(4.0), Some(3.0), None, Some(3.0)]);
    assert_eq!(number(stretch_winner(&all)), Some(2));
    cut_anywhere(&all);
    cut_anywhere(&entries(&[None, None, None]));
    for inputs in [inputs(), Inputs { one_axis: true, ..inputs() }] {
        let book = run(inputs);
        cut_anywhere(book.entries());
        assert_eq!(stretch_winner(book.entries()), book.run_best());
        // Of a run that was stopped.
        cut_anywhere(&book.entries()[..5]);
    }
}

#[test]
fn none_is_left_out_and_the_first_of_equal_ones_wins() {
    let all = entries(&[None, Some(2.0), Some(2.0), Some(-0.0), Some(0.0)]);
    let [skipped, two, also_two, minus_zero, zero] =
        [0, 1, 2, 3, 4].map(|i| stretch_winner(&all[i..=i]));
    assert_eq!((skipped, winner_of(&[]), winner_of(&[None, None])), (None, None, None));
    assert_eq!(number(winner_of(&[two, skipped, also_two])), Some(1));
    assert_eq!(number(winner_of(&[also_two, two])), Some(2));
    // Zeros of both signs are equal.
    assert_eq!(number(winner_of(&[zero, minus_zero])), Some(4));
}

#[test]
fn a_score_that_is_not_a_number_loses_to_every_number() {
    let all = entries(&[Some(f64::INFINITY), Some(3.0)]);
    let [infinite, three] = [0, 1].map(|i| stretch_winner(&all[i..=i]));
    let mut lost = three;
    if let Some(winner) = &mut lost {
        (winner.number, winner.scored.score) = (9, f64::NAN);
    }
    for number in [infinite, three] {
        assert_eq!(winner_of(&[lost, number]), number);
        assert_eq!(winner_of(&[number, lost]), number);
        assert_eq!(winner_of(&[lost, number, lost]), number);
    }
    // None is left out, also beside it.
    assert_eq!(number(winner_of(&[None, lost, None])), Some(9));
}
