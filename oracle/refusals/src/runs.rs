//! Refusals of Start, Next, Answer and Result, and what the seed call gives after them.

use crate::{Case, lent, list};
use words::{float_words as floats, word};

const BASE: [f64; 4] = [800.0, 790.0, 320.0, 240.0];

/// Start's inputs, and the length of the lent list.
#[derive(Clone)]
struct Start {
    views: u64,
    tilt_x: Vec<f64>,
    tilt_y: Vec<f64>,
    rounds: u64,
    step: f64,
    bound: f64,
    decomposition: Vec<f64>,
    room: usize,
}

/// An accepted Start: one seed, with no tilt, in the one round.
fn accepted() -> Start {
    Start {
        views: 3,
        tilt_x: vec![0.0],
        tilt_y: vec![0.0],
        rounds: 0,
        step: 0.0,
        bound: 0.25,
        decomposition: vec![],
        room: 54,
    }
}

impl Start {
    fn words(&self) -> Vec<u64> {
        [
            list(&lent(self.room)),
            vec![self.views],
            list(&self.tilt_x),
            list(&self.tilt_y),
            vec![self.rounds, word(self.step), word(self.bound)],
            list(&self.decomposition),
            floats(&BASE),
            floats(&[320.0, 240.0]),
        ]
        .concat()
    }

    /// A refused Start changes nothing of the list.
    fn refused(&self, number: u64) -> Case {
        Case::new(self.words(), [vec![number], floats(&lent(self.room))].concat())
    }

    /// An accepted Start writes these seeds to the front of the list; calls follow.
    fn followed(&self, seeds: &[f64], calls: &[Call]) -> Case {
        let tail = &lent(self.room)[seeds.len()..];
        let mut input = self.words();
        let mut output = [vec![0], floats(seeds), floats(tail)].concat();
        for call in calls {
            input.extend(&call.input);
            output.extend(&call.output);
        }
        Case::new(input, output)
    }
}

/// The base camera with tilts.
fn seed(tilt_x: f64, tilt_y: f64) -> Vec<f64> {
    [&BASE[..], &[tilt_x, tilt_y]].concat()
}

/// A change of Start's inputs.
type Change = fn(&mut Start);

/// Every way to be refused, by number.
fn start_ways() -> Vec<(u64, Change)> {
    vec![
        (1, |s| s.views = 2),
        (1, |s| s.views = 0),
        (2, |s| s.tilt_x = vec![]),
        (2, |s| s.tilt_y = vec![]),
        (3, |s| s.bound = 0.0),
        (3, |s| s.bound = -0.25),
        (3, |s| s.bound = f64::NAN),
        (3, |s| s.bound = f64::INFINITY),
        (4, |s| s.rounds = 1),
        (4, |s| (s.rounds, s.step) = (1, -0.0)),
        (4, |s| (s.rounds, s.step) = (16, -0.02)),
        (4, |s| (s.rounds, s.step) = (2, f64::NAN)),
        (4, |s| (s.rounds, s.step) = (2, f64::INFINITY)),
        (5, |s| s.tilt_x = vec![0.0; 17]),
        (5, |s| s.tilt_y = vec![0.0; 17]),
        (5, |s| (s.rounds, s.step) = (17, 0.02)),
        (5, |s| s.decomposition = vec![1.0; 7]),
        (5, |s| s.decomposition = vec![0.125; 6 * 257]),
        (6, |s| s.decomposition = seed(f64::NAN, 0.0)),
        (6, |s| s.decomposition = seed(0.0, f64::NEG_INFINITY)),
        (6, |s| s.decomposition = [seed(0.0, 0.0), seed(0.0, 0.375)].concat()),
        (6, |s| s.decomposition = seed(-0.375, 0.0)),
        (6, |s| s.decomposition = vec![0.0, 1.0, 0.0, 0.0, 0.0, 0.0]),
        (6, |s| s.decomposition = vec![1.0, -1.0, 0.0, 0.0, 0.0, 0.0]),
        (6, |s| s.decomposition = vec![f64::INFINITY, 1.0, 0.0, 0.0, 0.0, 0.0]),
        (6, |s| s.decomposition = vec![1.0, 1.0, f64::NAN, 0.0, 0.0, 0.0]),
        (6, |s| s.decomposition = vec![1.0, 1.0, 0.0, f64::INFINITY, 0.0, 0.0]),
        (7, |s| s.tilt_x = vec![0.0, f64::NAN]),
        (7, |s| s.tilt_y = vec![f64::INFINITY]),
        (8, |s| s.room = 53),
        (8, |s| s.room = 0),
        (8, |s| (s.tilt_x, s.tilt_y, s.room) = (vec![0.0; 5], vec![0.0; 2], 59)),
        (8, |s| (s.decomposition, s.tilt_x, s.room) = (seed(0.0, 0.0).repeat(5), vec![0.0; 5], 59)),
        (27, |s| s.bound = BEYOND),
        (27, |s| s.bound = 1.0),
        (27, |s| (s.bound, s.tilt_x) = (30.0, vec![0.5])),
        (27, |s| s.bound = f64::MAX),
    ]
}

/// For each number a way that leaves room for every other: pairs are made of these. 5 is the rounds
/// alone, so that 4 may set the step; 2 is the x tilts, 7 the y tilts; a bound of infinity is 3's
/// and 27's.
fn start_pairs() -> Vec<Case> {
    let ways: [(u64, Change); 9] = [
        (1, |s| s.views = 2),
        (2, |s| s.tilt_x = vec![]),
        (3, |s| s.bound = f64::NAN),
        (4, |s| (s.rounds, s.step) = (1, -0.02)),
        (5, |s| s.rounds = 17),
        (6, |s| s.decomposition = vec![0.0; 6]),
        (7, |s| s.tilt_y = vec![f64::NAN]),
        (8, |s| s.room = 53),
        (27, |s| s.bound = if s.bound.is_nan() { f64::INFINITY } else { 1.0 }),
    ];
    let mut cases = vec![];
    for (i, (number, first)) in ways.iter().enumerate() {
        for (_, second) in &ways[i + 1..] {
            let mut start = Start { step: 0.02, ..accepted() };
            first(&mut start);
            second(&mut start);
            cases.push(start.refused(*number));
        }
    }
    cases
}

fn starts() -> Vec<Case> {
    let mut cases = vec![];
    for (number, change) in start_ways() {
        let mut start = accepted();
        change(&mut start);
        cases.push(start.refused(number));
    }
    cases.extend(start_pairs());
    // two views and empty lists
    let nothing = Start { views: 2, tilt_x: vec![], tilt_y: vec![], ..accepted() };
    cases.push(nothing.refused(1));
    cases
}

// ---- calls after an accepted Start

/// A call's words and its reply's.
struct Call {
    input: Vec<u64>,
    output: Vec<u64>,
}

const CHANGED: u64 = 1;
const UNCHANGED: u64 = 0;

fn next(room: u64, output: &[u64]) -> Call {
    Call { input: vec![1, room], output: output.to_vec() }
}

fn next_hands_out(room: u64, number: u64) -> Call {
    next(room, &[0, number, CHANGED])
}

fn next_says_over(room: u64) -> Call {
    next(room, &[1, UNCHANGED])
}

fn next_refuses(room: u64, number: u64) -> Call {
    next(room, &[number, UNCHANGED])
}

fn seed_is(room: u64, numbers: &[f64]) -> Call {
    Call { input: vec![2, room], output: list(numbers) }
}

/// The host's answer: failed, or a camera with rows.
#[derive(Clone)]
struct Finding {
    camera: [f64; 4],
    rows: Vec<([f64; 4], u64)>,
    /// How many of the rows' numbers are lent.
    lent: u64,
    failed: bool,
}

/// One row, whose error is the root of 3 × 3 + 4 × 4.
fn solved() -> Finding {
    Finding { camera: BASE, rows: vec![([0.0, 0.0, 323.0, 244.0], 1)], lent: 4, failed: false }
}

fn failed() -> Finding {
    Finding { failed: true, lent: 0, ..solved() }
}

fn too_many_points() -> Finding {
    Finding { rows: vec![([0.0; 4], 1); 1025], lent: 4100, ..solved() }
}

fn with_row_numbers(lent: u64) -> Finding {
    Finding { rows: vec![([0.0; 4], 1); 2], lent, ..solved() }
}

fn with_flag(flag: u64) -> Finding {
    Finding { rows: vec![([0.0; 4], 1), ([0.0; 4], flag)], lent: 8, ..solved() }
}

/// Every way to refuse a finding for its rows: 13.
fn bad_rows() -> Vec<Finding> {
    vec![
        too_many_points(),
        with_row_numbers(7),
        with_row_numbers(9),
        with_row_numbers(4),
        with_flag(2),
        with_flag(255),
    ]
}

fn answer(room: u64, finding: &Finding, output: &[u64]) -> Call {
    let mut input = vec![3, room, finding.lent];
    if finding.failed {
        input.push(0);
    } else {
        input.push(1);
        input.extend(floats(&finding.camera));
        input.extend([0; 5]);
        input.push(finding.rows.len() as u64);
        for (numbers, flag) in &finding.rows {
            input.extend(floats(numbers));
            input.push(*flag);
        }
    }
    Call { input, output: output.to_vec() }
}

fn answer_refuses(room: u64, finding: &Finding, number: u64) -> Call {
    answer(room, finding, &[number, UNCHANGED])
}

fn answer_skips(room: u64, finding: &Finding, reason: u64) -> Call {
    answer(room, finding, &[reason, CHANGED])
}

fn answer_scores(room: u64, finding: &Finding, score: f64) -> Call {
    answer(room, finding, &[0, word(score), CHANGED])
}

fn result(output: &[u64]) -> Call {
    Call { input: vec![4], output: output.to_vec() }
}

fn result_refuses(number: u64) -> Call {
    result(&[number])
}

/// The candidate `number` with the base camera: tilts, mean and score.
fn result_is(number: u64, numbers: [f64; 4]) -> Call {
    let undistorted = [0.0; 5];
    result(&[vec![0, number], floats(&BASE), floats(&undistorted), floats(&numbers)].concat())
}

/// 12, with and without what would be refused after it.
fn no_seed_waits() -> Vec<Call> {
    let mut calls = vec![
        answer_refuses(54, &solved(), 12),
        answer_refuses(54, &failed(), 12),
        answer_refuses(53, &solved(), 12),
        answer_refuses(0, &failed(), 12),
    ];
    calls.extend(bad_rows()[1..].iter().map(|finding| answer_refuses(54, finding, 12)));
    calls
}

/// 10 and 13 while a seed waits, 10 also with what would be refused after it.
fn findings_refused() -> Vec<Call> {
    let mut calls = vec![answer_refuses(53, &solved(), 10), answer_refuses(0, &failed(), 10)];
    for finding in &bad_rows()[1..] {
        calls.push(answer_refuses(53, finding, 10));
        calls.push(answer_refuses(54, finding, 13));
    }
    calls
}

/// Every refusal around one seed, whose answer comes last and ends the run.
fn one_seed(last: Call, after: Vec<Call>) -> Case {
    let only = seed(0.0, 0.0);
    let mut calls = vec![seed_is(54, &[]), result_refuses(14), next_refuses(53, 10)];
    calls.push(next_refuses(0, 10));
    calls.extend(no_seed_waits());
    calls.extend([next_hands_out(54, 0), seed_is(54, &only), seed_is(53, &[])]);
    calls.extend([next_refuses(54, 9), next_refuses(53, 9), result_refuses(14)]);
    calls.extend(findings_refused());
    calls.extend([seed_is(54, &only), next_refuses(54, 9), last]);
    calls.extend(after);
    calls.extend(no_seed_waits());
    accepted().followed(&only, &calls)
}

/// A run that ended without a scored candidate: 10, else 11.
fn ended_unscored() -> Vec<Call> {
    vec![
        next_refuses(53, 10),
        next_refuses(54, 11),
        next_refuses(54, 11),
        seed_is(54, &[]),
        result_refuses(11),
    ]
}

/// 13 for 1,025 points, by itself and with each other refusal. A case has room for one such answer.
fn many_points() -> Vec<Case> {
    let only = seed(0.0, 0.0);
    let start = Start { room: 60, ..accepted() };
    let one = |room, finding: &Finding, number| {
        let calls = [
            next_hands_out(54, 0),
            answer_refuses(room, finding, number),
            seed_is(54, &only),
            answer_scores(60, &solved(), 5.0),
            result_is(0, [0.0, 0.0, 5.0, 5.0]),
        ];
        start.followed(&only, &calls)
    };
    vec![
        one(54, &too_many_points(), 13),
        one(53, &too_many_points(), 10),
        start.followed(&only, &[answer_refuses(54, &too_many_points(), 12)]),
    ]
}

/// Refusals between the candidates of a run of two rounds leave both as they would be without them.
fn two_rounds() -> Case {
    let start = Start { tilt_x: vec![0.0, 0.25], rounds: 1, step: 0.125, room: 60, ..accepted() };
    let list = [seed(0.0, 0.0), seed(0.25, 0.0)].concat();
    let better = Finding { rows: vec![([0.0, 0.0, 320.0, 240.0], 1)], ..solved() };
    let mut calls = vec![
        next_hands_out(60, 0),
        answer_scores(60, &solved(), 5.0),
        result_refuses(14),
        answer_refuses(60, &solved(), 12),
        next_refuses(53, 10),
        next_hands_out(60, 1),
        answer_refuses(60, &with_flag(2), 13),
        // the mean is 0, the tilt's penalty 0.25 × 0.25 × 0.25
        answer_scores(54, &better, 0.015625),
    ];
    // round 1's list, around (0.25, 0)
    for (number, (x, y)) in (2..).zip([
        (0.125, -0.125),
        (0.125, 0.0),
        (0.125, 0.125),
        (0.25, -0.125),
        (0.25, 0.0),
        (0.25, 0.125),
    ]) {
        calls.push(next_hands_out(60, number));
        calls.push(next_refuses(60, 9));
        calls.push(seed_is(60, &seed(x, y)));
        calls.push(answer_skips(60, &failed(), 1));
    }
    calls.extend([
        next_refuses(53, 10),
        next_says_over(54),
        result_is(1, [0.25, 0.0, 0.0, 0.015625]),
    ]);
    start.followed(&list, &calls)
}

/// Every grid seed lies beyond the bound and there is no decomposition: the run is over at once.
fn no_seeds() -> Case {
    let start = Start { tilt_x: vec![0.5, -0.5], rounds: 3, step: 0.02, ..accepted() };
    let mut calls = ended_unscored();
    calls.extend(no_seed_waits());
    start.followed(&[], &calls)
}

/// The number after 0.5.
const BEYOND: f64 = 0.5000000000000001;

/// Between two calls the host changes a number of the list.
fn list_changes(place: u64, number: f64) -> Call {
    Call { input: vec![5, place, word(number)], output: vec![] }
}

/// No valid camera, and no row in front of it: reasons 2 and 3.
fn skipped_findings() -> [Finding; 2] {
    [
        Finding { camera: [0.0, 790.0, 320.0, 240.0], ..solved() },
        Finding { rows: vec![([0.0; 4], 0)], ..solved() },
    ]
}

/// A tilt of the list that the host changed before Next: 27 comes after 12, 10 and 13 and before the
/// reasons of a skip, and the seed goes on waiting; of a failed answer the tilts aren't read.
fn changed_tilt(place: usize, tilt: f64) -> Case {
    let mut changed = seed(0.0, 0.0);
    changed[place] = tilt;
    let mut calls = vec![list_changes(place as u64, tilt), answer_refuses(54, &solved(), 12)];
    calls.extend([next_hands_out(54, 0), seed_is(54, &changed)]);
    calls.push(answer_refuses(53, &solved(), 10));
    calls.extend(bad_rows()[1..].iter().map(|finding| answer_refuses(54, finding, 13)));
    calls.push(answer_refuses(54, &solved(), 27));
    calls.extend(skipped_findings().iter().map(|finding| answer_refuses(54, finding, 27)));
    calls.extend([next_refuses(54, 9), seed_is(54, &changed)]);
    calls.push(answer_skips(54, &failed(), 1));
    calls.extend(ended_unscored());
    accepted().followed(&seed(0.0, 0.0), &calls)
}

/// 0.5 itself is no refusal, though beyond the bound of 0.25. The mean is 5, the penalty 0.25 × 0.25.
fn half_tilt(place: usize, tilt: f64) -> Case {
    let mut changed = seed(0.0, 0.0);
    changed[place] = tilt;
    let calls = [
        list_changes(place as u64, tilt),
        next_hands_out(54, 0),
        answer_scores(54, &solved(), 5.0625),
        next_says_over(54),
        result_is(0, [changed[4], changed[5], 5.0, 5.0625]),
    ];
    accepted().followed(&seed(0.0, 0.0), &calls)
}

/// A change after Next doesn't reach the seed that the run keeps; the seed call gives what stands
/// there.
fn changed_after_next() -> Case {
    let calls = [
        next_hands_out(54, 0),
        list_changes(4, f64::NAN),
        seed_is(54, &seed(f64::NAN, 0.0)),
        answer_scores(54, &solved(), 5.0),
        result_is(0, [0.0, 0.0, 5.0, 5.0]),
    ];
    accepted().followed(&seed(0.0, 0.0), &calls)
}

/// The largest bound, and a seed at it.
fn largest_bound() -> Case {
    let start = Start { tilt_x: vec![0.5], tilt_y: vec![BEYOND, 0.0], bound: 0.5, ..accepted() };
    let calls = [next_hands_out(54, 0), answer_scores(54, &solved(), 5.0625)];
    start.followed(&seed(0.5, 0.0), &calls)
}

/// What comes of tilts up to 0.5 and beyond.
fn tilts() -> Vec<Case> {
    let beyond = [f64::NAN, f64::INFINITY, f64::NEG_INFINITY, BEYOND, -BEYOND];
    let mut cases = vec![];
    for place in [4, 5] {
        cases.extend(beyond.map(|tilt| changed_tilt(place, tilt)));
        cases.extend([0.5, -0.5].map(|tilt| half_tilt(place, tilt)));
    }
    cases.extend([changed_after_next(), largest_bound()]);
    cases
}

// ---- runs about one axis (docs/SPECIFICATION.md, 4.7)

/// The number above 0.
const LEAST: f64 = 5e-324;

/// What Start refuses of a one-axis run, alone and with what is refused before or after it.
fn one_axis_starts() -> Vec<Case> {
    let ways: [(u64, Change); 15] = [
        (2, |s| s.tilt_y = vec![]),
        (5, |s| s.tilt_y = vec![0.0; 17]),
        (6, |s| (s.decomposition, s.tilt_y) = (seed(0.0, 0.375), vec![0.125])),
        (7, |s| s.tilt_y = vec![f64::NAN]),
        (8, |s| (s.room, s.tilt_y) = (53, vec![0.125])),
        (27, |s| (s.bound, s.tilt_y) = (1.0, vec![0.125])),
        (31, |s| s.tilt_y = vec![0.125]),
        (31, |s| s.tilt_y = vec![-LEAST]),
        (31, |s| s.tilt_y = vec![0.0, 0.0]),
        (31, |s| s.tilt_y = vec![-0.0, 0.125]),
        (31, |s| (s.tilt_y, s.decomposition) = (vec![0.125], seed(0.0, 0.125))),
        (32, |s| s.decomposition = seed(0.0, 0.125)),
        (32, |s| s.decomposition = seed(0.125, LEAST)),
        (32, |s| s.decomposition = [seed(0.125, -0.0), seed(0.0, -0.125)].concat()),
        (27, |s| (s.bound, s.decomposition) = (BEYOND, seed(0.0, 0.125))),
    ];
    let refused = |(number, change): (u64, Change)| {
        let mut start = accepted();
        change(&mut start);
        start.refused(number)
    };
    ways.map(refused).into()
}

/// Round 0 keeps the sign of its zeros; round 1, around (0.25, -0), has the y tilt +0, and its third
/// seed lies beyond the bound.
fn one_axis_rounds() -> Case {
    let start = Start {
        tilt_x: vec![0.25],
        tilt_y: vec![-0.0],
        decomposition: seed(0.0, -0.0),
        rounds: 1,
        step: 0.125,
        ..accepted()
    };
    let list = [seed(0.0, -0.0), seed(0.25, -0.0)].concat();
    let better = Finding { rows: vec![([0.0, 0.0, 320.0, 240.0], 1)], ..solved() };
    let calls = [
        next_hands_out(54, 0),
        seed_is(54, &seed(0.0, -0.0)),
        answer_scores(54, &solved(), 5.0),
        next_hands_out(54, 1),
        seed_is(54, &seed(0.25, -0.0)),
        answer_scores(54, &better, 0.015625),
        next_hands_out(54, 2),
        seed_is(54, &seed(0.125, 0.0)),
        answer_scores(54, &better, 0.00390625),
        next_hands_out(54, 3),
        seed_is(54, &seed(0.25, 0.0)),
        answer_skips(54, &failed(), 1),
        next_says_over(54),
        result_is(2, [0.125, 0.0, 0.0, 0.00390625]),
    ];
    start.followed(&list, &calls)
}

/// Of x - s, x, x + s the first is kept where s is 2^-42, which is below 1e-12.
fn one_axis_merged() -> Case {
    let step = 2f64.powi(-42);
    let start = Start { rounds: 1, step, ..accepted() };
    let calls = [
        next_hands_out(54, 0),
        answer_scores(54, &solved(), 5.0),
        next_hands_out(54, 1),
        seed_is(54, &seed(-step, 0.0)),
        answer_skips(54, &failed(), 1),
        next_says_over(54),
        result_is(0, [0.0, 0.0, 5.0, 5.0]),
    ];
    start.followed(&seed(0.0, 0.0), &calls)
}

pub fn one_axis() -> Vec<Case> {
    let mut cases = one_axis_starts();
    cases.extend([one_axis_rounds(), one_axis_merged()]);
    cases
}

pub fn calls() -> Vec<Case> {
    let over = || {
        vec![
            next_refuses(53, 10),
            next_says_over(54),
            next_says_over(54),
            seed_is(54, &[]),
            result_is(0, [0.0, 0.0, 5.0, 5.0]),
        ]
    };
    let [not_a_camera, behind] = skipped_findings();
    // of a failed answer the rows aren't read
    let failed_with_rows = Finding { lent: 3, ..failed() };
    let mut cases = starts();
    cases.extend([
        one_seed(answer_scores(54, &solved(), 5.0), over()),
        one_seed(answer_skips(54, &failed(), 1), ended_unscored()),
        one_seed(answer_skips(54, &failed_with_rows, 1), ended_unscored()),
        one_seed(answer_skips(54, &not_a_camera, 2), ended_unscored()),
        one_seed(answer_skips(54, &behind, 3), ended_unscored()),
        two_rounds(),
        no_seeds(),
    ]);
    cases.extend(many_points());
    cases.extend(tilts());
    cases
}
