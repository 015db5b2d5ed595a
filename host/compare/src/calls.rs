//! The calls of a search that take no finding, in plain Rust over the same record, as one would write them: the benchmark sets the
//! library beside them.

use jinnychair::journal::Line;
use jinnychair::record::{Best, Counts, Progress, Run, Waiting};
use jinnychair::{Handed, NextError, ResultError, Seed, StopError, Stopped, Winner};

/// Whether a search can have made the record.
fn is_sound(run: &Run) -> bool {
    let Run { options, place, waiting, .. } = run;
    let Counts { scored, host_failed, bad_camera, no_mean, no_number } = run.counts;
    let counts = [scored, host_failed, bad_camera, no_mean, no_number];
    let answered = counts.iter().try_fold(0_usize, |sum, count| sum.checked_add(*count));
    options.min_counted <= 100
        && options.refine_rounds <= 16
        && place.round <= options.refine_rounds
        && place.number <= 656
        && answered == Some(place.number)
        && place.len <= 512
        && (54..=3072).contains(&place.demand)
        && 6 * place.len <= place.demand
        && if place.over != 0 { waiting.is_waiting == 0 } else { place.at < place.len }
}

fn numbers(list: &[f64], at: usize) -> [f64; 6] {
    list[6 * at..6 * at + 6].try_into().expect("six numbers")
}

/// Hands out the next seed.
pub fn next(run: &mut Run, list: &[f64]) -> Result<Handed, NextError> {
    if !is_sound(run) {
        return Err(NextError::NothingScored);
    }
    if run.waiting.is_waiting != 0 {
        return Err(NextError::SeedWaiting);
    }
    if list.len() < run.place.demand {
        return Err(NextError::ListShortened);
    }
    if run.place.over != 0 {
        let is_found = run.run_best.found != 0;
        return is_found.then_some(Handed::Over).ok_or(NextError::NothingScored);
    }
    let seed = Seed::from_numbers(numbers(list, run.place.at));
    run.waiting = Waiting { is_waiting: 1, seed };
    Ok(Handed::Candidate { number: run.place.number, seed })
}

/// The waiting seed's numbers as they stand in the list.
pub fn seed(run: &Run, list: &[f64]) -> Option<[f64; 6]> {
    let waits = is_sound(run) && run.waiting.is_waiting != 0 && run.place.demand <= list.len();
    waits.then(|| numbers(list, run.place.at))
}

/// The winner of a run that is over.
pub fn result(run: &Run) -> Result<Winner, ResultError> {
    if !is_sound(run) {
        return Err(ResultError::NothingScored);
    }
    if run.place.over == 0 {
        return Err(ResultError::NotOver);
    }
    best(run).ok_or(ResultError::NothingScored)
}

fn best(run: &Run) -> Option<Winner> {
    (run.run_best.found != 0).then_some(run.run_best.candidate)
}

/// How far the run has come.
pub fn progress(run: &Run) -> Progress {
    if !is_sound(run) {
        return Progress::default();
    }
    Progress {
        round: run.place.round,
        rounds: run.options.refine_rounds,
        answered: run.place.at,
        total: run.place.len,
        answered_in_run: run.place.number,
    }
}

/// The lowest tilt penalty of the seeds that are left.
fn floor(run: &Run, list: &[f64]) -> f64 {
    let penalty = |x: f64, y: f64| 0.25 * (x * x + y * y);
    // A penalty that isn't a number is passed over.
    let lower = |floor: f64, penalty: f64| if penalty < floor { penalty } else { floor };
    let waits = run.waiting.is_waiting != 0;
    let rest = &list[6 * (run.place.at + usize::from(waits))..6 * run.place.len];
    let penalties = rest.chunks_exact(6).map(|seed| penalty(seed[4], seed[5]));
    let floor = penalties.fold(f64::INFINITY, lower);
    let sensor = run.waiting.seed.sensor;
    if waits { lower(floor, penalty(sensor.tilt_x, sensor.tilt_y)) } else { floor }
}

/// The best so far, and whether the round could gain anything.
pub fn stop(run: &Run, list: &[f64]) -> Result<Stopped, StopError> {
    let nothing_left = |best| Stopped { best, floor: None, no_gain: false };
    if !is_sound(run) {
        return Ok(nothing_left(None));
    }
    if list.len() < run.place.demand {
        return Err(StopError::ListShortened);
    }
    let best = best(run);
    if run.place.len <= run.place.at {
        return Ok(nothing_left(best));
    }
    let floor = floor(run, list);
    let no_gain = best.is_some_and(|best| floor >= best.score);
    Ok(Stopped { best, floor: Some(floor), no_gain })
}

/// How many candidates had which outcome.
pub fn counts(run: &Run) -> Counts {
    if is_sound(run) { run.counts } else { Counts::default() }
}

/// The last answered candidate's line.
pub fn last_line(run: &Run) -> Option<Line> {
    let is_found = is_sound(run) && run.last.found != 0 && run.last.line.skipped <= 4;
    is_found.then(|| run.last.line.into())
}

/// The better of two bests, the first where their scores are equal.
pub fn winner(first: &Best, second: &Best) -> Best {
    let is_better = |new: f64, old: f64| new < old || (old.is_nan() && !new.is_nan());
    let takes_second = first.found == 0
        || second.found != 0 && is_better(second.candidate.score, first.candidate.score);
    if takes_second { *second } else { *first }
}
