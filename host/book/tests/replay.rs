//! Running a journal again, by docs/SPECIFICATION.md, 8.6: what is accepted, what is 29 and what is 30.
#![allow(missing_docs)]

mod common;

use book::{Camera, Entry, Inputs, Outcome, Replayed, Scored, Seed, replay};
use common::{K, bytes, inputs, run};

/// The reply, and the list afterwards, which was all 7 before.
fn replayed(inputs: Inputs, journal: &[u8]) -> (Replayed, Vec<f64>) {
    let mut lent = vec![7.0; 60];
    (replay(inputs, journal, &mut lent), lent)
}

fn reply(journal: &[u8]) -> Replayed {
    replayed(inputs(), journal).0
}

/// The run's entries, one of them changed.
fn changed(place: usize, change: impl FnOnce(&mut Entry)) -> Vec<u8> {
    let mut entries = run(inputs()).entries().to_vec();
    change(&mut entries[place]);
    bytes(&entries)
}

/// The numbers of a scored entry.
fn scored(entry: &mut Entry) -> &mut Scored {
    match &mut entry.outcome {
        Outcome::Scored(scored) => scored,
        Outcome::Skipped(reason) => panic!("skipped for {reason}"),
    }
}

#[test]
fn a_runs_journal_leads_to_its_winner() {
    let book = run(inputs());
    let (reply, list) = replayed(inputs(), &bytes(book.entries()));
    let winner = book.result().unwrap();
    assert_eq!((winner.number, book.entries().len()), (2, 12));
    assert_eq!(reply, Replayed::Winner(2, winner.scored.score));
    // The last list, of nine seeds with the winner's camera; behind it the buffer is as it was.
    assert_eq!((list[..6].to_vec(), list[54]), (vec![4.0, 4.0, 1.0, -1.0, 0.0625, -0.0625], 7.0));
}

#[test]
fn lines_that_run_out_leave_the_next_seed() {
    let book = run(inputs());
    for (count, next) in book.entries().iter().enumerate() {
        let (reply, list) = replayed(inputs(), &bytes(&book.entries()[..count]));
        assert_eq!(reply, Replayed::Unfinished(next.seed), "{count}");
        // At the end of round 0 that is the first seed of round 1's list.
        assert_eq!(list[0], if count < 3 { 2.0 } else { 4.0 });
    }
}

#[test]
fn a_run_without_a_winner_is_11() {
    let mut beyond = inputs();
    (beyond.tilt_x_seeds, beyond.max_abs_tilt) = (vec![0.3], 0.25);
    assert_eq!(replayed(beyond, b""), (Replayed::Refused(11), vec![7.0; 60]));
    let mut entries = run(inputs()).entries()[..3].to_vec();
    for (entry, reason) in entries.iter_mut().zip([4, 2, 3]) {
        entry.outcome = Outcome::Skipped(reason);
    }
    let (reply, list) = replayed(inputs(), &bytes(&entries));
    assert_eq!((reply, list[16]), (Replayed::Refused(11), 0.125));
}

#[test]
fn the_inputs_are_refused_before_any_line_and_leave_the_list() {
    let refused = |change: fn(&mut Inputs)| {
        let mut inputs = inputs();
        change(&mut inputs);
        replayed(inputs, b"x\n")
    };
    for (change, number) in [
        (|i| i.views = 2, 1),
        (|i| i.max_abs_tilt = 0.6, 27),
        (|i| (i.one_axis, i.tilt_y_seeds) = (true, vec![0.1]), 31),
        (|i| (i.one_axis, i.decomposition) = (true, vec![2.0, 2.0, 0.0, 0.0, 0.0, 0.1]), 32),
        (|i| i.min_counted = 101, 33),
    ] as [(fn(&mut Inputs), u8); 5]
    {
        assert_eq!(refused(change), (Replayed::Refused(number), vec![7.0; 60]));
    }
    assert_eq!(replay(inputs(), b"", &mut [7.0; 53]), Replayed::Refused(8));
    // Round 0's list is there when the first line is refused.
    let (reply, list) = replayed(inputs(), b"x\n");
    assert_eq!((reply, list[4]), (Replayed::RefusedLine(29, 1), -0.125));
}

#[test]
fn each_line_is_29_before_it_is_30() {
    let book = run(inputs());
    let whole = bytes(book.entries());
    let line = bytes(&book.entries()[..1]);
    let followed_by = |end: &[u8]| reply(&[&whole[..], end].concat());
    // Behind the end of the run.
    assert_eq!(followed_by(&line), Replayed::RefusedLine(30, 13));
    assert_eq!(followed_by(&line[..50]), Replayed::RefusedLine(29, 13));
    assert_eq!(followed_by(b"\n"), Replayed::RefusedLine(29, 13));
    // The earlier line counts.
    assert_eq!(reply(&[&line[..], &line, b"x\n"].concat()), Replayed::RefusedLine(30, 2));
    assert_eq!(reply(&[&line[..], b"x\n", &line].concat()), Replayed::RefusedLine(29, 2));
}

#[test]
fn number_round_and_seed_are_the_runs_bit_by_bit() {
    let is_30 = |place: usize, change: fn(&mut Entry)| {
        assert_eq!(reply(&changed(place, change)), Replayed::RefusedLine(30, place + 1));
    };
    is_30(0, |entry| entry.number = 1);
    is_30(4, |entry| entry.number = 3);
    is_30(4, |entry| entry.round = 0);
    is_30(0, |entry| entry.round = 1);
    is_30(1, |entry| entry.seed.tilts[0] = -0.0);
    is_30(1, |entry| entry.seed.tilts[1] = f64::NAN);
    is_30(11, |entry| entry.seed.k[3] = entry.seed.k[3].next_up());
    // Also on a line that is skipped.
    is_30(3, |entry| entry.seed.k[0] += 1.0);
}

#[test]
fn a_seed_that_is_not_a_number_is_matched_by_the_one_that_is_written() {
    let nan = |bits: u64| f64::from_bits(bits);
    let with_base = |cx: f64| Inputs { base: [2.0, 2.0, cx, 0.0], ..inputs() };
    let journal = bytes(run(with_base(nan(0xfff8_0000_0000_0001))).entries());
    let (reply, _) = replayed(with_base(nan(0x7ff8_0000_0000_0055)), &journal);
    assert!(matches!(reply, Replayed::Winner(2, _)), "{reply:?}");
}

#[test]
fn a_scored_line_has_a_camera_a_mean_and_their_score() {
    let with = |change: fn(&mut Scored)| reply(&changed(0, |entry| change(scored(entry))));
    let is_30 = |change: fn(&mut Scored)| assert_eq!(with(change), Replayed::RefusedLine(30, 1));
    is_30(|s| s.score = s.score.next_up());
    is_30(|s| s.score = f64::INFINITY);
    is_30(|s| s.mean += 0.5);
    is_30(|s| (s.mean, s.score) = (f64::INFINITY, f64::INFINITY));
    is_30(|s| (s.mean, s.score) = (-1.0, -1.0 + 0.25 * (0.01 * 0.01) + 0.25 * (0.125 * 0.125)));
    is_30(|s| s.mean = f64::NAN);
    is_30(|s| s.camera.k[0] = 0.0);
    is_30(|s| s.camera.k[1] = -4.0);
    is_30(|s| s.camera.k[2] = f64::NAN);
    is_30(|s| s.camera.k[3] = f64::INFINITY);
    is_30(|s| s.camera.tangential[1] = f64::NAN);
    is_30(|s| s.camera.tangential[0] = 0.02);
    // Its own score, but beyond the damping.
    is_30(|s| {
        s.camera.tangential = [0.06, 0.0];
        s.score = s.mean + 0.25 * (0.06 * 0.06) + 0.25 * (0.125 * 0.125);
    });
}

/// A first line with the mean and the tangential factor, and the score that belongs to them.
fn first(mean: f64, p1: f64, score: f64) -> Replayed {
    let camera = Camera { k: K, radial: [0.0; 3], tangential: [p1, -0.0] };
    let outcome = Outcome::Scored(Scored { camera, mean, score });
    let seed = Seed { k: [2.0, 2.0, 0.0, 0.0], tilts: [0.0, 0.0] };
    let inputs = Inputs { tilt_x_seeds: vec![0.0], rounds: 0, ..inputs() };
    replayed(inputs, &bytes(&[Entry { number: 0, round: 0, seed, outcome }])).0
}

#[test]
fn bounds_belong_to_what_is_taken() {
    assert_eq!(first(-0.0, -0.0, 0.0), Replayed::Winner(0, 0.0));
    assert_eq!(first(-0.0, -0.0, -0.0), Replayed::RefusedLine(30, 1));
    let penalty = 0.25 * (0.05 * 0.05);
    assert_eq!(first(0.0, 0.05, penalty), Replayed::Winner(0, penalty));
    assert_eq!(first(0.0, -0.05, penalty), Replayed::Winner(0, penalty));
    let beyond = 0.05_f64.next_up();
    assert_eq!(first(0.0, beyond, 0.25 * (beyond * beyond)), Replayed::RefusedLine(30, 1));
}

#[test]
fn no_line_is_scored_where_the_observed_centre_is_not_finite() {
    let far = Inputs { centre: [f64::INFINITY, 0.0], ..inputs() };
    let journal = bytes(run(inputs()).entries());
    assert_eq!(replayed(far.clone(), &journal).0, Replayed::RefusedLine(30, 1));
    // Such a run has reason 4 for every camera, and ends with 11.
    let book = run(far.clone());
    assert_eq!(book.counts().numbers(), [0, 0, 0, 0, 3]);
    assert_eq!(replayed(far, &bytes(book.entries())).0, Replayed::Refused(11));
}

#[test]
fn another_camera_shows_in_the_next_round_alone() {
    let winner = reply(&bytes(run(inputs()).entries()));
    let other = |place: usize| {
        reply(&changed(place, |entry| {
            let cx = &mut scored(entry).camera.k[2];
            *cx = cx.next_up();
        }))
    };
    // Candidate 0 isn't the best of its round. Candidate 2 is, and its camera is that of all seeds of round 1.
    assert_eq!(other(0), winner);
    assert_eq!(other(2), Replayed::RefusedLine(30, 4));
    assert_eq!(other(8), winner);
}

#[test]
fn the_share_is_not_asked_of_lines_and_one_axis_has_lists_of_its_own() {
    let journal = bytes(run(inputs()).entries());
    let (reply, _) = replayed(Inputs { min_counted: 100, ..inputs() }, &journal);
    assert!(matches!(reply, Replayed::Winner(2, _)), "{reply:?}");
    let one_axis = || Inputs { one_axis: true, ..inputs() };
    let book = run(one_axis());
    assert_eq!(book.entries().len(), 6);
    let (reply, _) = replayed(one_axis(), &bytes(book.entries()));
    assert_eq!(reply, Replayed::Winner(2, book.result().unwrap().scored.score));
    // A journal of both axes parts from it with round 1.
    assert_eq!(replayed(one_axis(), &journal).0, Replayed::RefusedLine(30, 4));
}
