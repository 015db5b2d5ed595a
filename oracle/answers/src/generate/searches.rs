//! Cases of whole searches: Start's inputs, and a scripted host that answers each seed.

use super::Family;
use super::seeds::{CAMERA, most_seeds, plain_inputs, start_inputs};
use super::values::{after, before, edge};
use crate::operations::search::{Published, finding_words, run};
use random::Random;
use std::cell::RefCell;
use std::ops::Range;
use std::rc::Rc;
use vision_calibration_linear::script::{Finding, Row, SeedNumbers};
use words::start::Inputs;

const RANDOM_SEARCHES: usize = 260;

/// The most rows of an answer.
const MOST_ROWS: usize = 1024;

pub fn families() -> Vec<Family> {
    vec![Family {
        operation: "search",
        fixed: fixed_searches,
        random: RANDOM_SEARCHES,
        draw: drawn_search,
    }]
}

/// How a host answers.
#[derive(Clone)]
struct Habits {
    /// The tilt whose neighbourhood has the least errors.
    truth: [f64; 2],
    /// Of ten answers, how many fail in each way: host failed, bad camera, bad mean.
    failures: [usize; 3],
    /// Candidates by number that all fail.
    silent: Range<usize>,
    /// The most rows of an answer.
    rows: usize,
    /// Errors are whole numbers that don't depend on the tilt, so that scores often tie.
    ties: bool,
    /// Cameras so far off that the centre penalty's square overflows, once in this many answers.
    far_center: Option<usize>,
}

const STEADY: Habits = Habits {
    truth: [0.03, -0.02],
    failures: [0, 0, 0],
    silent: 0..0,
    rows: 3,
    ties: false,
    far_center: None,
};

struct Host {
    habits: Habits,
    random: Random,
    asked: usize,
}

impl Host {
    fn finding(&mut self, seed: &SeedNumbers) -> Finding {
        let number = self.asked;
        self.asked += 1;
        let [failed, bad_camera, bad_mean] = self.habits.failures;
        let roll = self.random.below(10);
        if self.habits.silent.contains(&number) {
            return self.fruitless(seed, roll);
        }
        if roll < failed {
            return Finding::Failed;
        }
        let mut finding = self.solved(seed);
        if roll < failed + bad_camera {
            spoil_camera(&mut finding, &mut self.random);
        } else if roll < failed + bad_camera + bad_mean {
            spoil_rows(&mut finding, &mut self.random);
        }
        finding
    }

    /// A finding that can't be scored.
    fn fruitless(&mut self, seed: &SeedNumbers, roll: usize) -> Finding {
        let mut finding = self.solved(seed);
        match roll {
            0 => spoil_camera(&mut finding, &mut self.random),
            1 => spoil_rows(&mut finding, &mut self.random),
            _ => finding = Finding::Failed,
        }
        finding
    }

    fn solved(&mut self, seed: &SeedNumbers) -> Finding {
        if self.habits.ties {
            return tied(&mut self.random);
        }
        let random = &mut self.random;
        let [fx, fy, cx, cy, tilt_x, tilt_y] = *seed;
        let k = [fx, fy, cx, cy].map(|number| number + random.within(2.0));
        let far = self.habits.far_center.is_some_and(|times| random.once_in(times));
        let cx = if far { 1e200 } else { k[2] };
        let p = |random: &mut Random| random.pick(&[0.0, -0.0, 0.01, -0.002, 0.05, 0.07, -0.3]);
        let radial = random.within(0.3);
        let camera = [k[0], k[1], cx, k[3], radial, 0.1, -0.0, p(random), p(random)];
        let away = [tilt_x - self.habits.truth[0], tilt_y - self.habits.truth[1]];
        let error = 40.0 * (away[0].abs() + away[1].abs()) + 0.25;
        let rows = (0..1 + random.below(self.habits.rows)).map(|_| row(k, error, random)).collect();
        Finding::Solved { camera, rows }
    }
}

fn row([fx, fy, cx, cy]: [f64; 4], error: f64, random: &mut Random) -> Row {
    let (x, y) = (random.within(0.4), random.within(0.3));
    Row {
        ideal: [x, y],
        seen: [fx * x + cx + random.within(error), fy * y + cy + random.within(error)],
        in_front: !random.once_in(6),
    }
}

/// The point that no tilt moves, and exact numbers: each row's error is 5 or 10.
fn tied(random: &mut Random) -> Finding {
    let times = random.pick(&[1.0, 1.0, 1.0, 2.0]);
    let row =
        Row { ideal: [0.0, 0.0], seen: [256.0 + 3.0 * times, 192.0 - 4.0 * times], in_front: true };
    Finding::Solved {
        camera: [512.0, 512.0, 256.0, 192.0, 0.0, 0.0, 0.0, 0.0, 0.0],
        rows: vec![row; 1 + random.below(2)],
    }
}

/// A number of the camera that isn't finite, or a focal length that isn't above 0. The radial
/// coefficients are damped before the check, so the same there spoils nothing.
fn spoil_camera(finding: &mut Finding, random: &mut Random) {
    let Finding::Solved { camera, .. } = finding else { return };
    let not_finite = random.pick(&[f64::NAN, f64::INFINITY, f64::NEG_INFINITY]);
    let no_length = random.pick(&[0.0, -0.0, -800.0]);
    let (place, number) = random.pick(&[
        (0, no_length),
        (1, no_length),
        (0, not_finite),
        (2, not_finite),
        (3, not_finite),
        (4, not_finite),
        (7, f64::NAN),
        (8, not_finite),
    ]);
    camera[place] = number;
}

/// No row at all, none in front, or none whose error is finite.
fn spoil_rows(finding: &mut Finding, random: &mut Random) {
    let Finding::Solved { rows, .. } = finding else { return };
    match random.below(4) {
        0 => rows.clear(),
        1 => rows.iter_mut().for_each(|row| row.in_front = false),
        2 => rows.iter_mut().for_each(|row| row.seen[1] = f64::NAN),
        // Each error is finite, their sum isn't.
        _ => {
            *rows =
                vec![Row { ideal: [0.0, 0.0], seen: [1.7e308_f64.sqrt(), 0.0], in_front: true }; 2]
        }
    }
}

/// The case's words: Start's inputs, then what the host answers, asked by the search itself.
fn case(inputs: &Inputs, mut answers: impl FnMut(&SeedNumbers) -> Finding + 'static) -> Vec<u64> {
    let findings = Rc::new(RefCell::new(Vec::new()));
    let kept = Rc::clone(&findings);
    let refused = inputs.refusal().expect("each refusal has a number").is_some();
    if !refused {
        let host = move |seed: &SeedNumbers| {
            let finding = answers(seed);
            kept.borrow_mut().push(finding.clone());
            finding
        };
        run(inputs, host).expect("each end of a search has a reply");
    }
    let findings = findings.borrow();
    let mut words = inputs.words();
    words.push(findings.len() as u64);
    words.extend(findings.iter().flat_map(finding_words));
    words
}

fn hosted(inputs: &Inputs, habits: Habits, random: &mut Random) -> Vec<u64> {
    let mut host = Host { habits, random: random.fork(), asked: 0 };
    case(inputs, move |seed| host.finding(seed))
}

/// A search in one of several manners.
fn drawn_search(random: &mut Random) -> Vec<u64> {
    let mut inputs = start_inputs(random);
    let mut habits = Habits {
        truth: [random.within(0.2), random.within(0.1)],
        rows: random.pick(&[1, 1, 2]),
        ..STEADY
    };
    match random.below(10) {
        0 | 1 => {}
        2 => habits.failures = [3, 0, 0],
        3 => habits.failures = [2, 2, 3],
        4 => habits.failures = [4, 3, 3],
        5 => {
            habits.ties = true;
            inputs.tilt_x_seeds = random.pick(&[[0.125, -0.125], [0.0625, 0.125]]).to_vec();
            inputs.tilt_y_seeds = random.pick(&[[-0.03125, 0.03125], [0.125, 0.0625]]).to_vec();
        }
        6 => {
            habits.ties = true;
            habits.failures = [2, 1, 1];
        }
        7 => {
            // A later round, or its first part, scores nothing.
            inputs.rounds = 2;
            habits.silent = 4..4 + random.pick(&[5, 9, 14, 18]);
        }
        8 => habits.far_center = Some(random.pick(&[2, 3, 5])),
        _ => inputs.center[random.below(2)] = random.pick(&[f64::NAN, f64::INFINITY, 1e160]),
    }
    hosted(&inputs, habits, random)
}

/// Starts that are refused, with the next refusal's cause as well where both are possible.
fn refused_starts() -> Vec<Inputs> {
    let good = || plain_inputs(&[0.0], &[0.0], 0.25);
    let seed = |place: usize, number: f64| {
        let mut seed = [800.0, 800.0, 320.0, 240.0, 0.1, -0.1];
        seed[place] = number;
        Inputs { decomposition: seed.to_vec(), ..good() }
    };
    let infinity = f64::INFINITY;
    let mut starts = vec![
        Inputs { views: 2, ..plain_inputs(&[], &[], 0.25) },
        Inputs { views: 0, ..good() },
        plain_inputs(&[], &[0.0], 0.0),
        plain_inputs(&[0.0], &[], 0.25),
        plain_inputs(&[0.0], &[0.0], -0.0),
        plain_inputs(&[0.0], &[0.0], -1.0),
        plain_inputs(&[0.0], &[0.0], infinity),
        Inputs { rounds: 1, refine_step: 0.0, ..plain_inputs(&[0.0], &[0.0], f64::NAN) },
        Inputs { rounds: 17, refine_step: 0.0, ..good() },
        Inputs { rounds: 1, refine_step: -0.02, ..good() },
        Inputs { rounds: 1, refine_step: infinity, ..good() },
        Inputs { rounds: 1, refine_step: f64::NAN, ..good() },
        Inputs { rounds: 17, ..good() },
        plain_inputs(&[0.0; 17], &[f64::NAN], 0.25),
        plain_inputs(&[0.0], &[0.0; 17], 0.25),
        Inputs { decomposition: vec![1.0; 6 * 257], ..good() },
        Inputs { decomposition: vec![f64::NAN; 5], ..good() },
        Inputs { tilt_x_seeds: vec![f64::NAN], ..seed(0, 0.0) },
        plain_inputs(&[0.0, f64::NAN], &[0.0], 0.25),
        plain_inputs(&[0.0], &[0.0, -infinity], 0.25),
    ];
    starts.extend((0..6).flat_map(|place| [seed(place, f64::NAN), seed(place, infinity)]));
    starts.extend([seed(0, 0.0), seed(1, -0.0), seed(1, -800.0)]);
    starts.extend([seed(4, 0.2500000001), seed(5, -0.2500000001)]);
    starts
        .extend([after(0.5), 1.0, 30.0, f64::MAX].map(|bound| plain_inputs(&[0.0], &[0.0], bound)));
    starts.push(plain_inputs(&[0.0, f64::NAN], &[0.0], 1.0));
    starts
}

/// Refused Starts; rounds 0 with any step; no seed; the largest tilts; one list of each limit.
fn fixed_searches() -> Vec<Vec<u64>> {
    let mut random = Random::named("fixed searches");
    let failed = |_: &SeedNumbers| Finding::Failed;
    let mut cases: Vec<Vec<u64>> =
        refused_starts().iter().map(|inputs| case(inputs, failed)).collect();
    let no_seed = plain_inputs(&[0.5, -0.5], &[0.0], 0.25);
    let nothing_scored = Inputs { rounds: 2, ..plain_inputs(&[0.0, 0.1], &[0.0], 0.25) };
    let no_step = Inputs { refine_step: f64::NAN, ..plain_inputs(&[0.0], &[0.1], 0.25) };
    cases.extend([case(&no_seed, failed), case(&nothing_scored, failed)]);
    cases.push(hosted(&no_step, STEADY, &mut random));
    let largest = [0.5, -0.5, before(0.5), 0.464, -0.409, 0.258, 0.1, -0.0];
    let largest = Inputs { rounds: 2, ..plain_inputs(&largest, &[0.5, -0.464, 0.0], 0.5) };
    cases.push(hosted(&largest, STEADY, &mut random));
    cases.extend(tiny_steps(&mut random));
    cases.extend(nan_scores());
    cases.push(most_answers(&mut random));
    cases.extend(most_rows(&mut random));
    cases
}

/// Steps so small that only the first corner remains after merging, or that don't move at all.
fn tiny_steps(random: &mut Random) -> Vec<Vec<u64>> {
    [1e-12, 5e-13, 1e-14, 1e-18, 5e-324]
        .into_iter()
        .map(|refine_step| {
            let inputs = plain_inputs(&[0.0, 0.25], &[-0.125], 0.25);
            hosted(&Inputs { rounds: 3, refine_step, ..inputs }, STEADY, random)
        })
        .collect()
}

/// A NaN score never wins: the first of round 0, a later one, the first of round 1, one behind it;
/// nor where every score is NaN, since the observed centre lies at infinity.
fn nan_scores() -> Vec<Vec<u64>> {
    let inputs = Inputs { rounds: 1, ..plain_inputs(&[0.0, 0.125, -0.125], &[0.0], 0.25) };
    let mut cases: Vec<Vec<u64>> =
        [0, 1, 3, 4].into_iter().map(|nan_at| nan_at_one(&inputs, nan_at)).collect();
    cases.push(nan_at_one(&Inputs { center: [f64::INFINITY, 240.0], ..inputs }, 0));
    cases
}

/// A search whose candidate of this number has its centre so far out that its score is NaN.
fn nan_at_one(inputs: &Inputs, nan_at: u32) -> Vec<u64> {
    let mut number = 0;
    case(inputs, move |_| {
        let cx = if number == nan_at { 1e200 } else { CAMERA[2] };
        number += 1;
        let [fx, fy, _, cy] = CAMERA;
        let row = Row { ideal: [0.0, 0.0], seen: [cx, cy + f64::from(number)], in_front: true };
        Finding::Solved { camera: [fx, fy, cx, cy, 0.0, 0.0, 0.0, 0.0, 0.0], rows: vec![row] }
    })
}

/// 656 answers: 512 seeds in round 0 and nine in each of 16 rounds. Most of them fail, so that
/// the line stays within its length; a round's best is never so near to the bound that seeds go.
fn most_answers(random: &mut Random) -> Vec<u64> {
    let mut host = Host { habits: STEADY, random: random.fork(), asked: 0 };
    host.habits.rows = 1;
    let mut number = 0;
    case(&most_seeds(), move |seed| {
        number += 1;
        let inside = seed[4].abs() < 0.1 && seed[5].abs() < 0.1;
        if inside && number % 4 == 0 { host.finding(seed) } else { Finding::Failed }
    })
}

/// Answers with the most rows, and with rows that have an edge in each place.
fn most_rows(random: &mut Random) -> Vec<Vec<u64>> {
    let inputs = plain_inputs(&[0.0], &[0.125], 0.25);
    let of_rows = |rows: Vec<Row>| {
        let finding = Finding::Solved {
            camera: [800.0, 790.0, 320.5, 239.25, 0.1, 0.1, 0.1, 0.01, -0.02],
            rows,
        };
        case(&inputs, move |_| finding.clone())
    };
    let many = (0..MOST_ROWS).map(|_| row(CAMERA, 2.0, random)).collect();
    let mut cases = vec![of_rows(many)];
    cases.extend((0..20).map(|_| {
        let mut rows: Vec<Row> = (0..8).map(|_| row(CAMERA, 2.0, random)).collect();
        for row in &mut rows {
            match random.below(4) {
                0 => row.ideal[random.below(2)] = edge(random),
                1 => row.seen[random.below(2)] = edge(random),
                _ => {}
            }
        }
        of_rows(rows)
    }));
    cases
}
