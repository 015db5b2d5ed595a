//! Operations that begin a search.

use super::fields::*;
use super::lists::UNTOUCHED;
use super::{Answer, Fault, Words};
use beside::record_words::{of_candidate, of_run};
use jinnychair::record::{
    Best, Counts, FlatLine, Inputs, LastLine, Options, Place, Run, Waiting, answer, next, result,
    seed, start,
};
use jinnychair::{
    BrownConrady5, Finding, FxFyCxCy, Handed, Outcome, PinholeCamera, Pt2, ResultError, Rows,
    ScheimpflugParams, Seed, Winner, raw,
};
use words::start::Inputs as StartWords;
use words::{Reader, float_words, word};

fn wrong(fault: impl ToString) -> Fault {
    Fault::Wrong(fault.to_string())
}

/// Start's inputs for the library, on two axes; no share of counted rows is asked for, as in the Rust.
#[must_use]
pub fn library_inputs(given: &StartWords) -> Inputs<'_> {
    let ([fx, fy, cx, cy], [x, y]) = (given.base, given.center);
    Inputs {
        views: given.views,
        options: Options {
            refine_rounds: given.rounds,
            refine_step: given.refine_step,
            max_abs_tilt: given.max_abs_tilt,
            one_axis: 0,
            min_counted: 0,
        },
        tilt_x_seeds: &given.tilt_x_seeds,
        tilt_y_seeds: &given.tilt_y_seeds,
        decomposition: &given.decomposition,
        base: FxFyCxCy { fx, fy, cx, cy },
        center: Pt2 { x, y },
    }
}

/// A list that is long enough for the inputs.
fn room(given: &StartWords) -> Vec<f64> {
    let seeds =
        given.decomposition.len().div_ceil(6) + given.tilt_x_seeds.len() * given.tilt_y_seeds.len();
    vec![UNTOUCHED; 54.max(6 * seeds)]
}

/// Start's inputs = n(seeds), six numbers a seed: round 0's list
pub(super) fn seed_lists(r: &mut Reader) -> Answer {
    let given = StartWords::read(r)?;
    let mut list = room(&given);
    let run = start(&library_inputs(&given), &mut list).map_err(wrong)?;
    Ok(list_words(run.place.len, &list))
}

fn list_words(seeds: usize, list: &[f64]) -> Words {
    [vec![seeds as u64], float_words(&list[..6 * seeds])].concat()
}

/// That of a run without an answer.
const NO_LINE: LastLine = LastLine {
    found: 0,
    line: FlatLine {
        number: 0,
        round: 0,
        seed: Seed {
            reference_k: FxFyCxCy { fx: 0.0, fy: 0.0, cx: 0.0, cy: 0.0 },
            sensor: ScheimpflugParams { tilt_x: 0.0, tilt_y: 0.0 },
        },
        skipped: 0,
        score: 0.0,
        mean: 0.0,
        k: FxFyCxCy { fx: 0.0, fy: 0.0, cx: 0.0, cy: 0.0 },
        p1: 0.0,
        p2: 0.0,
    },
};

/// A run whose round has this best, and one seed left, which waits.
fn run_with_best(best: Best, refine_step: f64, max_abs_tilt: f64) -> Run {
    let Winner { camera: PinholeCamera { k, .. }, sensor, .. } = best.candidate;
    Run {
        options: Options {
            refine_rounds: 1,
            refine_step,
            max_abs_tilt,
            one_axis: 0,
            min_counted: 0,
        },
        center: Pt2 { x: 0.0, y: 0.0 },
        place: Place { demand: 54, round: 0, step: 0.0, len: 1, at: 0, number: 1, over: 0 },
        waiting: Waiting { is_waiting: 1, seed: Seed { reference_k: k, sensor } },
        round_best: best,
        run_best: best,
        last: NO_LINE,
        counts: Counts { scored: 1, ..Counts::default() },
    }
}

/// fx fy cx cy tilt_x tilt_y step max_abs_tilt = n(seeds), six numbers a seed. The next list is made by the answer to a round's
/// last seed; here by a run whose round has its best already.
pub(super) fn local_seed_grid(r: &mut Reader) -> Answer {
    let (k, sensor) = (intrinsics(r)?, sensor(r)?);
    let [refine_step, max_abs_tilt] = r.floats()?;
    let camera = PinholeCamera { k, dist: BrownConrady5::default() };
    let candidate = Winner { number: 0, camera, sensor, mean_reproj_error: 0.0, score: 0.0 };
    let mut run = run_with_best(Best { found: 1, candidate }, refine_step, max_abs_tilt);
    let mut list = [UNTOUCHED; 54];
    answer(&mut run, &Finding::Failed, &mut list).map_err(wrong)?;
    Ok(list_words(run.place.len, &list))
}

/// Next, which must hand out this candidate, the seed and Answer.
fn take_turn(run: &mut Run, list: &mut [f64], number: usize, r: &mut Reader) -> Answer {
    let waits = match next(run, list) {
        Ok(Handed::Candidate { number: given, seed }) if given == number => seed.numbers(),
        other => return Err(wrong(format!("candidate {number}: Next gives {other:?}"))),
    };
    let part = seed(run, list).ok_or_else(|| wrong("no seed waits"))?;
    let mut words = float_words(&part);
    if float_words(&waits) != words {
        return Err(wrong(format!(
            "candidate {number}: {waits:?} is handed out, and {part:?} waits"
        )));
    }
    let solved = if r.flag()? { Some((camera(r)?, rows(r)?)) } else { None };
    let finding = match &solved {
        None => Finding::Failed,
        Some((camera, (numbers, flags))) => {
            Finding::Solved { camera: *camera, rows: Rows { numbers, flags } }
        }
    };
    match answer(run, &finding, list).map_err(wrong)? {
        Outcome::Scored(score) => words.extend([0, word(score)]),
        Outcome::Skipped(reason) => words.push(reason.number().into()),
    }
    Ok(words)
}

/// Start's inputs, n(answers), answers = Start's number, n(seeds), each seed and its reply, the result
pub(super) fn search(r: &mut Reader) -> Answer {
    let given = StartWords::read(r)?;
    let mut list = room(&given);
    let answers = r.count()?;
    let mut run = match start(&library_inputs(&given), &mut list) {
        Ok(run) => run,
        Err(error) => return Ok(vec![error.number().into()]),
    };
    let mut words = vec![0, answers as u64];
    for number in 0..answers {
        words.extend(take_turn(&mut run, &mut list, number, r)?);
    }
    let end = next(&mut run, &list);
    let result = result(&run);
    match (end, result) {
        (Ok(Handed::Over), Ok(_)) => {}
        (Err(e), Err(f)) if (e.number(), f.number()) == (11, 11) => {}
        other => return Err(wrong(format!("at the end {other:?}"))),
    }
    words.extend(result_words(result));
    Ok(words)
}

/// 0 and the candidate; or the number of a refusal
pub fn result_words(reply: Result<Winner, ResultError>) -> Words {
    match reply {
        Ok(winner) => [vec![0], of_candidate(&winner)].concat(),
        Err(error) => vec![error.number().into()],
    }
}

/// A run between two calls, and the host's list.
struct Called {
    run: Run,
    list: Vec<f64>,
}

/// list, Start's inputs, calls = Start's number, list, each call's words
pub(super) fn calls(r: &mut Reader) -> Answer {
    calls_on_axes(r, 0)
}

/// The same for a run about one axis.
pub(super) fn calls_one_axis(r: &mut Reader) -> Answer {
    calls_on_axes(r, 1)
}

fn calls_on_axes(r: &mut Reader, one_axis: u8) -> Answer {
    let mut list = r.list()?;
    let given = StartWords::read(r)?;
    let mut inputs = library_inputs(&given);
    inputs.options.one_axis = one_axis;
    let started = start(&inputs, &mut list);
    let mut words = vec![started.as_ref().map_or_else(|e| e.number().into(), |_| 0)];
    words.extend(float_words(&list));
    let Ok(run) = started else { return Ok(words) };
    let mut called = Called { run, list };
    while !r.is_empty() {
        words.extend(called.call(r)?);
    }
    Ok(words)
}

impl Called {
    /// The call that stands next; each but the last two lends so many numbers of the list's front.
    fn call(&mut self, r: &mut Reader) -> Answer {
        match r.number()? {
            1 => self.next(r.count()?),
            2 => self.seed(r.count()?),
            3 => self.answer(r),
            4 => Ok(result_words(result(&self.run))),
            5 => self.change(r.count()?, r.float()?),
            other => Err(Fault::Malformed(format!("{other} is no call"))),
        }
    }

    /// So many numbers of the list's front.
    fn front(&mut self, len: usize) -> Result<&mut [f64], Fault> {
        let front = self.list.get_mut(..len);
        front.ok_or_else(|| Fault::Malformed(format!("{len} numbers of a shorter list")))
    }

    /// 1, n(lent) = 0 n(candidate), 1 for Over, or a refusal; changed
    fn next(&mut self, len: usize) -> Answer {
        let mut run = self.run;
        let mut words = match next(&mut run, self.front(len)?) {
            Ok(Handed::Candidate { number, .. }) => vec![0, number as u64],
            Ok(Handed::Over) => vec![1],
            Err(error) => vec![error.number().into()],
        };
        words.push((of_run(&run) != of_run(&self.run)).into());
        self.run = run;
        Ok(words)
    }

    /// 2, n(lent) = n(numbers), the numbers
    fn seed(&mut self, len: usize) -> Answer {
        let (run, mut to) = (self.run, [UNTOUCHED; 6]);
        let count = raw::seed(run, self.front(len)?, &mut to);
        let (numbers, behind) =
            to.split_at_checked(count).ok_or_else(|| wrong("more numbers than a seed has"))?;
        if float_words(behind) != vec![word(UNTOUCHED); behind.len()] {
            return Err(wrong("the seed call writes more than it says"));
        }
        Ok([vec![count as u64], float_words(numbers)].concat())
    }

    /// 3, n(lent), n(numbers of the rows that are lent), answer = 0 score, the reason of a skip, or a refusal; changed
    fn answer(&mut self, r: &mut Reader) -> Answer {
        let (len, lent, is_solved) = (r.count()?, r.count()?, r.flag()?);
        let (camera, (mut numbers, flags)) =
            if is_solved { (camera(r)?, rows(r)?) } else { (NOT_SOLVED, (vec![], vec![])) };
        // A case may lend more numbers than its rows have; none of those is to be read.
        numbers.resize(lent, UNTOUCHED);
        let (run, before) = (self.run, float_words(&self.list));
        let rows = Rows { numbers: &numbers, flags: &flags };
        let reply = raw::answer(run, is_solved.into(), camera, rows, self.front(len)?);
        let mut words = match (reply.number, reply.skipped) {
            (0, 0) => vec![0, word(reply.score)],
            (0, reason) => vec![reason.into()],
            (number, _) => vec![number.into()],
        };
        let is_changed = of_run(&reply.run) != of_run(&run) || float_words(&self.list) != before;
        words.push(is_changed.into());
        self.run = reply.run;
        Ok(words)
    }

    /// 5, n(place), number: between two calls the host writes to its list, and nothing is replied
    fn change(&mut self, place: usize, number: f64) -> Answer {
        let held = self.list.get_mut(place);
        *held.ok_or_else(|| Fault::Malformed(format!("the list has no place {place}")))? = number;
        Ok(vec![])
    }
}

/// What is passed beside Failed; it isn't read.
const NOT_SOLVED: PinholeCamera = PinholeCamera {
    k: FxFyCxCy { fx: UNTOUCHED, fy: UNTOUCHED, cx: UNTOUCHED, cy: UNTOUCHED },
    dist: BrownConrady5 {
        k1: UNTOUCHED,
        k2: UNTOUCHED,
        k3: UNTOUCHED,
        p1: UNTOUCHED,
        p2: UNTOUCHED,
    },
};
