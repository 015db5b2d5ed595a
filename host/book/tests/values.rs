//! Values that were worked out by hand, and runs of a few calls that can be followed by hand.
#![allow(missing_docs)]

use book::{
    Answered, Book, Camera, Counts, Errors, Finding, Handed, Inputs, Outcome, Progress, Rows,
    Stopped, write_report,
};

fn inputs(x: &[f64], y: &[f64]) -> Inputs {
    Inputs {
        views: 3,
        tilt_x_seeds: x.to_vec(),
        tilt_y_seeds: y.to_vec(),
        rounds: 1,
        refine_step: 0.125,
        max_abs_tilt: 0.25,
        one_axis: false,
        min_counted: 0,
        decomposition: Vec::new(),
        base: [2.0, 2.0, 0.0, 0.0],
        centre: [0.0, 0.0],
    }
}

fn camera() -> Camera {
    Camera { k: [2.0, 2.0, 0.0, 0.0], radial: [9.0; 3], tangential: [f64::INFINITY, -0.0] }
}

/// A camera whose only row is the given number of pixels off.
fn row(error: f64) -> [f64; 4] {
    [0.0, 0.0, error, 0.0]
}

fn solved() -> Finding {
    Finding::Solved(Camera { tangential: [0.0; 2], ..camera() })
}

fn answer(book: &mut Book, lent: &mut [f64], error: f64) -> Answered {
    book.answer(&solved(), Rows { numbers: &row(error), flags: &[1] }, lent)
}

#[test]
fn grid_seeds_beyond_the_bound_are_skipped_and_equal_ones_merged() {
    assert_eq!(inputs(&[0.25, 0.5], &[0.0]).first_list().len(), 1);
    let list = inputs(&[0.0, -0.0], &[0.0]).first_list();
    assert_eq!(list.len(), 1);
    assert!(list[0].tilts[0].is_sign_positive());
}

#[test]
fn next_list_keeps_six_at_the_bound() {
    let list = inputs(&[0.0], &[0.0]).next_list(1, [1.0; 4], [0.25, 0.0]);
    let tilts: Vec<_> = list.iter().map(|seed| seed.tilts).collect();
    let expected =
        [[0.125, -0.125], [0.125, 0.0], [0.125, 0.125], [0.25, -0.125], [0.25, 0.0], [0.25, 0.125]];
    assert_eq!(tilts, expected);
}

#[test]
fn start_refuses_by_the_first_number() {
    let refusal = |change: fn(&mut Inputs), len: usize| {
        let mut inputs = inputs(&[0.0], &[0.0]);
        change(&mut inputs);
        inputs.refusal(len)
    };
    assert_eq!(refusal(|_| (), 54), None);
    assert_eq!(refusal(|i| (i.views, i.tilt_x_seeds) = (2, vec![]), 54), Some(1));
    assert_eq!(refusal(|i| i.tilt_y_seeds.clear(), 54), Some(2));
    assert_eq!(refusal(|i| i.max_abs_tilt = f64::NAN, 54), Some(3));
    assert_eq!(refusal(|i| i.refine_step = 0.0, 54), Some(4));
    assert_eq!(refusal(|i| (i.refine_step, i.rounds) = (0.0, 0), 54), None);
    assert_eq!(refusal(|i| i.decomposition = vec![1.0; 5], 54), Some(5));
    assert_eq!(refusal(|i| i.decomposition = vec![1.0; 6], 54), Some(6));
    assert_eq!(refusal(|i| i.tilt_x_seeds = vec![f64::INFINITY], 54), Some(7));
    assert_eq!(refusal(|_| (), 53), Some(8));
    assert_eq!(refusal(|i| i.max_abs_tilt = 1.0, 53), Some(8));
    assert_eq!(refusal(|i| i.max_abs_tilt = 1.0, 54), Some(27));
    assert_eq!(refusal(|i| i.max_abs_tilt = 0.5, 54), None);
}

#[test]
fn one_axis_wants_tilt_y_to_be_0_of_either_sign() {
    let refusal = |y: &[f64], seeds: &[f64], max_abs_tilt: f64| {
        let decomposition = seeds.iter().flat_map(|y| [2.0, 2.0, 0.0, 0.0, 0.1, *y]).collect();
        let inputs = Inputs { one_axis: true, max_abs_tilt, decomposition, ..inputs(&[0.0], y) };
        inputs.refusal(inputs.demand())
    };
    assert_eq!(refusal(&[0.0], &[0.0, -0.0], 0.25), None);
    assert_eq!(refusal(&[-0.0], &[], 0.25), None);
    assert_eq!(refusal(&[0.0, 0.0], &[], 0.25), Some(31));
    assert_eq!(refusal(&[5e-324], &[0.1], 0.25), Some(31));
    assert_eq!(refusal(&[0.0], &[0.0, -5e-324], 0.25), Some(32));
    // What both kinds of run refuse comes first.
    assert_eq!(refusal(&[], &[], 0.25), Some(2));
    assert_eq!(refusal(&[0.0], &[0.3], 0.25), Some(6));
    assert_eq!(refusal(&[f64::NAN], &[], 0.25), Some(7));
    assert_eq!(refusal(&[0.1, 0.1], &[0.1], 0.6), Some(27));
}

#[test]
fn share_above_all_rows_is_the_last_refusal() {
    let refusal = |min_counted: usize, y: f64| {
        Inputs { min_counted, one_axis: true, ..inputs(&[0.0], &[y]) }.refusal(54)
    };
    assert_eq!((refusal(0, 0.0), refusal(100, 0.0), refusal(101, 0.0)), (None, None, Some(33)));
    assert_eq!((refusal(usize::MAX, 0.0), refusal(101, 0.1)), (Some(33), Some(31)));
}

/// The outcome of a first candidate that has the same row for each flag.
fn outcome(min_counted: usize, row: [f64; 4], flags: &[u8], camera: Camera) -> Outcome {
    let mut lent = [0.0; 54];
    let inputs = Inputs { min_counted, ..inputs(&[0.0], &[0.0]) };
    let mut book = Book::start(inputs, &mut lent).unwrap();
    book.next(&lent);
    let numbers = row.repeat(flags.len());
    match book.answer(&Finding::Solved(camera), Rows { numbers: &numbers, flags }, &mut lent) {
        Answered::Entered(outcome) => outcome,
        Answered::Refused(number) => panic!("refused with {number}"),
    }
}

#[test]
fn share_of_counted_rows_decides_between_scored_and_reason_3() {
    let good = Camera { tangential: [0.0; 2], ..camera() };
    let is_scored = |share: usize, flags: &[u8]| match outcome(share, row(3.0), flags, good) {
        Outcome::Scored(scored) => scored.mean == 3.0,
        other => {
            assert_eq!(other, Outcome::Skipped(3));
            false
        }
    };
    assert!(is_scored(75, &[1, 1, 1, 0]) && !is_scored(76, &[1, 1, 1, 0]));
    assert!(is_scored(100, &[1, 1]) && !is_scored(100, &[1, 0]));
    assert!(is_scored(0, &[1, 0, 0, 0]) && !is_scored(0, &[0]));
    // No rows have any share, and no mean.
    assert!(!is_scored(100, &[]));
    // Of three rows 33 per cent are one, 34 are two.
    assert!(is_scored(33, &[1, 0, 0]) && !is_scored(34, &[1, 0, 0]));
}

#[test]
fn share_is_asked_after_the_camera_and_before_the_score() {
    let bad = Camera { k: [-1.0, 2.0, 0.0, 0.0], ..camera() };
    assert_eq!(outcome(100, row(3.0), &[0], bad), Outcome::Skipped(2));
    // A centre so far out that its penalty isn't a number; the rows are seen there.
    let far = Camera { k: [2.0, 2.0, 1e200, 0.0], tangential: [0.0; 2], ..camera() };
    let of_share = |share: usize| outcome(share, row(1e200), &[1, 0], far);
    assert_eq!((of_share(50), of_share(51)), (Outcome::Skipped(4), Outcome::Skipped(3)));
}

#[test]
fn errors_are_counted_as_answer_counts_them() {
    let rows = Rows { numbers: &[row(3.0), row(4.0), row(f64::NAN)].concat(), flags: &[1, 0, 1] };
    let good = Camera { tangential: [0.0; 2], ..camera() };
    assert_eq!(good.count_errors([0.0; 2], rows), Ok(Errors { sum: 3.0, counted: 1 }));
    // Radial distortion is left out, and the tangential one limited.
    assert_eq!(camera().count_errors([0.0; 2], rows), good.count_errors([0.0; 2], rows));
    assert_eq!(good.count_errors([0.51, 0.0], rows), Err(27));
    let shapeless = Rows { numbers: &[], flags: &[1] };
    assert_eq!(good.count_errors([f64::NAN, 0.0], shapeless), Err(13));
}

#[test]
fn one_axis_list_has_three_seeds_with_tilt_y_0() {
    let inputs = Inputs { one_axis: true, ..inputs(&[0.0], &[-0.0]) };
    assert!(inputs.first_list()[0].tilts[1].is_sign_negative());
    let tilts = |around: [f64; 2]| -> Vec<_> {
        inputs.next_list(1, [1.0; 4], around).iter().map(|seed| seed.tilts).collect()
    };
    let list = tilts([0.0, -0.0]);
    assert_eq!(list, [[-0.125, 0.0], [0.0, 0.0], [0.125, 0.0]]);
    assert!(list.iter().all(|tilts| tilts[1].is_sign_positive()));
    assert_eq!(tilts([0.25, 0.0]), [[0.125, 0.0], [0.25, 0.0]]);
    // A list that the host changed.
    assert_eq!(tilts([0.0, 0.125]), [[-0.125, 0.125], [0.0, 0.125], [0.125, 0.125]]);
    assert!(tilts([0.0, 0.375]).is_empty());
}

#[test]
fn one_axis_step_below_the_merging_distance_leaves_the_first() {
    let inputs = Inputs { one_axis: true, refine_step: 1e-13, ..inputs(&[0.0], &[0.0]) };
    let list = inputs.next_list(1, [1.0; 4], [0.0; 2]);
    assert_eq!(list.iter().map(|seed| seed.tilts).collect::<Vec<_>>(), [[-1e-13, 0.0]]);
}

#[test]
fn run_without_seeds_is_over_at_once() {
    let mut lent = [7.0; 54];
    let mut book = Book::start(inputs(&[0.5], &[0.0]), &mut lent).unwrap();
    assert_eq!(book.next(&lent), Handed::Refused(11));
    assert_eq!(book.result(), Err(11));
    assert_eq!(lent, [7.0; 54]);
}

#[test]
fn calls_out_of_order_are_refused() {
    let mut lent = [0.0; 54];
    let mut book = Book::start(inputs(&[0.0], &[0.0]), &mut lent).unwrap();
    assert!(book.seed(&lent).is_empty());
    assert_eq!(answer(&mut book, &mut lent, 1.0), Answered::Refused(12));
    assert_eq!(book.next(&lent[..53]), Handed::Refused(10));
    assert_eq!(book.next(&lent), Handed::Candidate(0));
    assert_eq!(book.seed(&lent), [2.0, 2.0, 0.0, 0.0, 0.0, 0.0]);
    assert_eq!(book.next(&lent), Handed::Refused(9));
    assert_eq!(book.result(), Err(14));
    let shapeless = Rows { numbers: &[], flags: &[1] };
    assert_eq!(book.answer(&solved(), shapeless, &mut lent), Answered::Refused(13));
    assert!(matches!(answer(&mut book, &mut lent, 1.0), Answered::Entered(Outcome::Scored(_))));
}

#[test]
fn changed_tilt_beyond_a_half_is_refused_for_a_camera_alone() {
    for (tilt, refused) in [(0.5000000000000001, true), (f64::NAN, true), (-0.5, false)] {
        let mut lent = [0.0; 54];
        let mut book = Book::start(inputs(&[0.0], &[0.0]), &mut lent).unwrap();
        lent[5] = tilt;
        assert_eq!(book.next(&lent), Handed::Candidate(0));
        let rows = Rows { numbers: &[], flags: &[1] };
        assert_eq!(book.answer(&solved(), rows, &mut lent), Answered::Refused(13));
        if refused {
            assert_eq!(answer(&mut book, &mut lent, 1.0), Answered::Refused(27));
        }
        let failed = book.answer(&Finding::Failed, rows, &mut lent);
        assert_eq!(failed, Answered::Entered(Outcome::Skipped(1)));
    }
}

#[test]
fn damping_keeps_the_sign_of_zero_and_limits_infinity() {
    let mut lent = [0.0; 54];
    let mut book = Book::start(inputs(&[0.0], &[0.0]), &mut lent).unwrap();
    book.next(&lent);
    let rows = Rows { numbers: &row(3.0), flags: &[1] };
    let reply = book.answer(&Finding::Solved(camera()), rows, &mut lent);
    let Answered::Entered(Outcome::Scored(scored)) = reply else { panic!("{reply:?}") };
    assert_eq!(scored.camera.radial, [0.0; 3]);
    assert_eq!(scored.camera.tangential, [0.05, 0.0]);
    assert!(scored.camera.tangential[1].is_sign_negative());
    assert_eq!(scored.mean, 3.0);
}

#[test]
fn earliest_of_equal_scores_wins_and_rounds_end_the_run() {
    let mut lent = [0.0; 54];
    let mut book = Book::start(inputs(&[0.0], &[0.0]), &mut lent).unwrap();
    for number in 0..10 {
        assert_eq!(book.next(&lent), Handed::Candidate(number));
        // Two opposite tilts get the same score, the lowest.
        let error = if number == 2 || number == 8 { 1.0 } else { 2.0 };
        answer(&mut book, &mut lent, error);
    }
    let scores: Vec<_> = book.entries().iter().map(|entry| entry.outcome).collect();
    assert_eq!(scores[2], scores[8]);
    assert_eq!(book.next(&lent), Handed::Over);
    assert_eq!(book.result().unwrap().number, 2);
}

#[test]
fn score_that_is_not_a_number_loses() {
    let mut lent = [0.0; 54];
    let mut book =
        Book::start(Inputs { rounds: 0, ..inputs(&[0.0, 0.125], &[0.0]) }, &mut lent).unwrap();
    book.next(&lent);
    // A centre so far out that its penalty isn't a number; the row is seen there.
    let far = Camera { k: [2.0, 2.0, 1e200, 0.0], tangential: [0.0; 2], ..camera() };
    let rows = Rows { numbers: &[0.0, 0.0, 1e200, 0.0], flags: &[1] };
    let lost = book.answer(&Finding::Solved(far), rows, &mut lent);
    assert!(matches!(lost, Answered::Entered(Outcome::Skipped(4))));
    book.next(&lent);
    answer(&mut book, &mut lent, 1.0);
    assert_eq!(book.result().unwrap().number, 1);
}

/// The progress after a first tilt is scored, which is then the centre of round 1.
fn progress_around(x: f64, refine_step: f64, max_abs_tilt: f64, one_axis: bool) -> Progress {
    let mut lent = [0.0; 54];
    let inputs = Inputs { refine_step, max_abs_tilt, one_axis, ..inputs(&[x], &[0.0]) };
    let mut book = Book::start(inputs, &mut lent).unwrap();
    let zeros = Progress { round: 0, rounds: 1, answered: 0, total: 1, answered_in_run: 0 };
    assert_eq!(book.progress(), zeros);
    book.next(&lent);
    assert_eq!(book.progress(), zeros);
    answer(&mut book, &mut lent, 1.0);
    let progress = book.progress();
    assert_eq!((progress.round, progress.answered, progress.answered_in_run), (1, 0, 1));
    assert_eq!(progress.total, book.list_len());
    progress
}

#[test]
fn a_rounds_total_is_that_of_the_tilts_within_the_bound() {
    assert_eq!(progress_around(0.25, 0.05, 0.3, false).total, 9);
    // 0.28 + 0.02 is rounded to above 0.3.
    assert_eq!(progress_around(0.28, 0.02, 0.3, false).total, 6);
    assert_eq!(progress_around(0.28, 0.02, 0.3, true).total, 2);
    assert_eq!(progress_around(0.3, 1e-11, 0.3, true).total, 2);
    assert_eq!(progress_around(0.0, 0.4, 0.3, false).total, 1);
    // Below 1e-11 tilts may merge.
    assert_eq!(progress_around(0.1, 1e-13, 0.3, false).total, 1);
    assert_eq!(progress_around(0.1, 8e-13, 0.3, true).total, 2);
}

#[test]
fn progress_ends_with_the_last_rounds_numbers() {
    let mut lent = [0.0; 54];
    let mut book = Book::start(inputs(&[0.0], &[0.0]), &mut lent).unwrap();
    while let Handed::Candidate(_) = book.next(&lent) {
        answer(&mut book, &mut lent, 1.0);
    }
    let last = Progress { round: 1, rounds: 1, answered: 9, total: 9, answered_in_run: 10 };
    assert_eq!(book.progress(), last);
    // A run that never had a seed.
    let none = Book::start(inputs(&[0.5], &[0.0]), &mut lent).unwrap().progress();
    let zeros = Progress { round: 0, rounds: 1, answered: 0, total: 0, answered_in_run: 0 };
    assert_eq!(none, zeros);
}

#[test]
fn stop_gives_the_floor_of_what_is_left() {
    let mut lent = [0.0; 54];
    let inputs = Inputs { rounds: 0, ..inputs(&[0.25, 0.125, 0.0], &[0.0]) };
    let mut book = Book::start(inputs, &mut lent).unwrap();
    let told = |book: &Book, lent: &[f64]| {
        let Stopped { best, floor, no_gain } = book.stop(lent).unwrap();
        (best.map(|best| best.number), floor, no_gain)
    };
    assert_eq!(book.stop(&lent[..53]), Err(10));
    assert_eq!(told(&book, &lent), (None, Some(0.0), false));
    book.next(&lent);
    // The waiting seed is taken as it was handed out.
    (lent[4], lent[10], lent[16]) = (0.0, 0.125, 0.5);
    assert_eq!(told(&book, &lent), (None, Some(0.25 * 0.125 * 0.125), false));
    // An exact fit: the score is the penalty, 0.25 * 0.25 * 0.25.
    answer(&mut book, &mut lent, 0.0);
    assert_eq!(told(&book, &lent), (Some(0), Some(0.25 * 0.125 * 0.125), false));
    // A floor that equals the best's score gains nothing.
    lent[10] = 0.25;
    assert_eq!(told(&book, &lent), (Some(0), Some(0.25 * 0.25 * 0.25), true));
    // A penalty that isn't a number counts as infinity.
    (lent[10], lent[16]) = (f64::NAN, f64::INFINITY);
    assert_eq!(told(&book, &lent), (Some(0), Some(f64::INFINITY), true));
    for error in [2.0, 3.0] {
        book.next(&lent);
        book.answer(&Finding::Failed, Rows { numbers: &row(error), flags: &[1] }, &mut lent);
    }
    assert_eq!(told(&book, &lent), (Some(0), None, false));
    assert_eq!(book.stop(&lent[..53]), Err(10));
    assert_eq!(book.result().unwrap().number, 0);
}

#[test]
fn every_entered_answer_is_counted_once_and_no_other_call() {
    let mut lent = [0.0; 54];
    let tilts = [0.0, 0.05, 0.1, 0.15, 0.2, 0.25];
    let inputs = Inputs { rounds: 0, ..inputs(&tilts, &[0.0]) };
    let mut book = Book::start(inputs, &mut lent).unwrap();
    let told = |book: &Book| (book.counts().numbers(), book.entries().len());
    assert_eq!(told(&book), ([0; 5], 0));
    answer(&mut book, &mut lent, 1.0);
    assert_eq!(told(&book), ([0; 5], 0));
    let good = Camera { tangential: [0.0; 2], ..camera() };
    let far = Camera { k: [2.0, 2.0, 1e200, 0.0], ..good };
    let none = Camera { k: [0.0; 4], ..good };
    for (finding, rows, counted) in [
        (Finding::Failed, row(1.0), [0, 1, 0, 0, 0]),
        (Finding::Solved(none), row(1.0), [0, 1, 1, 0, 0]),
        (Finding::Solved(good), row(f64::NAN), [0, 1, 1, 1, 0]),
        (Finding::Solved(far), row(1e200), [0, 1, 1, 1, 1]),
        (Finding::Solved(good), row(1.0), [1, 1, 1, 1, 1]),
        (Finding::Solved(good), row(2.0), [2, 1, 1, 1, 1]),
    ] {
        let before = told(&book);
        book.next(&lent);
        let refused = book.answer(&solved(), Rows { numbers: &[], flags: &[1] }, &mut lent);
        assert_eq!(refused, Answered::Refused(13));
        // A seed that waits isn't counted, and a refused answer isn't either.
        assert_eq!(told(&book), before);
        book.answer(&finding, Rows { numbers: &rows, flags: &[1] }, &mut lent);
        assert_eq!(told(&book), (counted, counted.iter().sum()));
    }
}

#[test]
fn report_has_five_counts_and_their_total() {
    let report = |scored: usize, skipped: [usize; 4], room: usize| {
        write_report(&Counts { scored, skipped }, room)
            .map(|bytes| String::from_utf8(bytes).unwrap())
    };
    assert_eq!(report(0, [0; 4], 24).as_deref(), Ok("0,0,0,0,0,0\n"));
    assert_eq!(report(0, [0; 4], 23), Err(28));
    let longest = report(100, [100; 4], 24).unwrap();
    assert_eq!((longest.as_str(), longest.len()), ("100,100,100,100,100,500\n", 24));
    assert_eq!(report(7, [1, 20, 0, 3], 99).as_deref(), Ok("7,1,20,0,3,31\n"));
    assert_eq!(report(656, [0; 4], 24).as_deref(), Ok("656,0,0,0,0,656\n"));
    assert_eq!(report(0, [0, 0, 1, 656], 24), Err(28));
    // These sums would be 0 and 4 if they wrapped round.
    assert_eq!(report(usize::MAX, [1, 0, 0, 0], 24), Err(28));
    assert_eq!(report(1 << 63, [1, 1, 1 << 63, 2], 24), Err(28));
}
