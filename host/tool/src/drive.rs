//! Runs the search to its end, or until it is stopped, and keeps every tried tilt.

use crate::residuals::{rms, row_errors};
use jinnychair::geometry::ErrorCount;
use jinnychair::journal::{Line, Recorded};
use jinnychair::{
    Counts, Ended, Inputs, Options, Outcome, PinholeCamera, Progress, ResultError, RunError,
    Search, Seed, SkipReason, Solution, Stopped, Winner, geometry,
};
use std::ops::ControlFlow;

/// A tried tilt.
#[derive(Clone, Copy, Debug, PartialEq)]
pub struct Tried {
    /// The candidate's number.
    pub number: usize,
    /// The round that it was tried in.
    pub round: usize,
    /// Where its seed comes from.
    pub source: Source,
    /// What the host started from.
    pub seed: Seed,
    /// What became of it.
    pub outcome: Outcome,
    /// More about it, if it was scored.
    pub scored: Option<Scored>,
    /// How many dots its error rests on; nothing where the host found no camera.
    pub dots: Option<Dots>,
}

/// Where a seed comes from.
#[derive(Clone, Copy, Debug, PartialEq, Eq)]
pub enum Source {
    /// The host's decomposition.
    Decomposition,
    /// A file of the lab's own seeds.
    SeedFile,
    /// The grid of typed tilts.
    Grid,
    /// A round around the candidate of this number.
    Around(usize),
}

/// The camera of a scored candidate, and how well it fits.
#[derive(Clone, Copy, Debug, PartialEq)]
pub struct Scored {
    /// The camera, with damped distortion.
    pub camera: PinholeCamera,
    /// The mean error of its counted rows, in pixels.
    pub mean: f64,
    /// The root of their mean square, in pixels; a journal doesn't have it.
    pub rms: Option<f64>,
}

/// Counted dots.
#[derive(Clone, Copy, Debug, PartialEq, Eq)]
pub struct Dots {
    /// Those in front of the camera with a finite error.
    pub counted: usize,
    /// All of them.
    pub all: usize,
}

/// A search that came to its end, or was stopped.
#[derive(Clone, Debug)]
pub struct Finished {
    /// Every tried tilt, in order.
    pub tried: Vec<Tried>,
    /// The best one, or why there is none.
    pub winner: Result<Winner, RunError>,
    /// How it stood when it was stopped, if it was.
    pub stop: Option<Stop>,
    /// How many were scored, and skipped for each reason, as the library counts them.
    pub counts: Counts,
}

/// A search that was stopped.
#[derive(Clone, Debug, PartialEq)]
pub struct Stop {
    /// By what.
    pub why: String,
    /// The best so far, and what the round could still gain.
    pub stopped: Stopped,
    /// How far it had come.
    pub progress: Progress,
}

/// By what a search is stopped that is looked at in a journal, and isn't over there.
pub const JOURNAL_END: &str = "the end of the journal";

/// For a search that runs to its end, whatever is tried.
pub fn to_the_end(_: &Tried, _: &Progress) -> ControlFlow<String> {
    ControlFlow::Continue(())
}

/// Runs the search; `sources` says where each decomposition seed of the inputs comes from, and `watch` sees each tried
/// tilt, with how far the search had come until then. It may break, and says why.
///
/// # Errors
///
/// Says why the search can't start.
pub fn run(
    inputs: &Inputs,
    sources: &[Source],
    solve: impl FnMut(&Seed) -> Option<Solution>,
    watch: impl FnMut(&Tried, &Progress) -> ControlFlow<String>,
) -> Result<Finished, String> {
    let search = (start(inputs)?, vec![]);
    go_on(search, (inputs.decomposition, sources), solve, |_| Ok(()), watch)
}

/// Starts a search.
///
/// # Errors
///
/// Says why it can't start.
pub fn start(inputs: &Inputs) -> Result<Search, String> {
    Search::start(inputs).map_err(|error| format!("the search can't start: {error}"))
}

/// Runs a search that is started, and has tried some tilts perhaps. `given` are the decomposition seeds, and where each
/// comes from; `keep` is given the journal's line of each tried tilt before the next seed is asked for.
///
/// # Errors
///
/// What `keep` says; the search then stops.
pub fn go_on(
    (mut search, mut tried): (Search, Vec<Tried>),
    given: (&[Seed], &[Source]),
    solve: impl FnMut(&Seed) -> Option<Solution>,
    mut keep: impl FnMut(&Line) -> Result<(), String>,
    mut watch: impl FnMut(&Tried, &Progress) -> ControlFlow<String>,
) -> Result<Finished, String> {
    let (mut why, mut not_kept) = (String::new(), None);
    let ended = search.run_until(solve, |one| {
        if let Err(fault) = keep(&one.line) {
            not_kept = Some(fault);
            return ControlFlow::Break(());
        }
        let new = kept(one, source(&tried, one.round, &one.seed, given));
        let flow = watch(&new, &one.progress);
        tried.push(new);
        flow.map_break(|reason| why = reason)
    });
    if let Some(fault) = not_kept {
        return Err(fault);
    }
    let (winner, stop) = match ended {
        Ok(Ended::Over(winner)) => (Ok(winner), None),
        Ok(Ended::Stopped(stopped)) => {
            let stop = Stop { why, stopped, progress: search.progress() };
            (stopped.best.ok_or(RunError::Result(ResultError::NotOver)), Some(stop))
        }
        Err(error) => (Err(error), None),
    };
    Ok(Finished { tried, winner, stop, counts: search.counts() })
}

/// How a search stands that was taken up from its journal: it is over, or the journal's end stops it.
#[must_use]
pub fn as_it_stands(search: &Search, tried: Vec<Tried>) -> Finished {
    let counts = search.counts();
    let (winner, stop) = match search.result() {
        Err(ResultError::NotOver) => {
            let (stopped, progress) = (search.stop(), search.progress());
            let stop = Stop { why: JOURNAL_END.into(), stopped, progress };
            (stopped.best.ok_or(ResultError::NotOver), Some(stop))
        }
        result => (result, None),
    };
    Finished { tried, winner: winner.map_err(RunError::Result), stop, counts }
}

/// A tried tilt as it is kept.
fn kept(one: &jinnychair::Tried, source: Source) -> Tried {
    let (number, round, seed, outcome) = (one.number, one.round, one.seed, one.outcome);
    let errors = one.solution.and_then(|solution| Some((solution, counted(&seed, solution)?)));
    let scored = errors.filter(|_| outcome.score().is_some());
    let scored = scored.map(|(solution, errors)| fit_of(&seed, solution, errors));
    let dots = errors.map(|(solution, errors)| dots_of(solution, errors));
    Tried { number, round, source, seed, outcome, scored, dots }
}

/// Adds to the tilt of a journal's line what only the views tell: its RMS error and its counted dots. Where the host
/// doesn't find the line's camera and mean again, bit by bit, nothing is added.
pub fn complete(one: &mut Tried, solution: &Solution) {
    let Some(errors) = counted(&one.seed, solution) else { return };
    let found = fit_of(&one.seed, solution, errors);
    let numbers = |scored: &Scored| {
        let PinholeCamera { k, dist } = scored.camera;
        [k.fx, k.fy, k.cx, k.cy, dist.p1, dist.p2, scored.mean].map(f64::to_bits)
    };
    match &mut one.scored {
        Some(scored) if numbers(scored) == numbers(&found) => scored.rms = found.rms,
        Some(_) => return,
        None if one.outcome == Outcome::Skipped(SkipReason::HostFailed) => return,
        None => {}
    }
    one.dots = Some(dots_of(solution, errors));
}

fn dots_of(solution: &Solution, errors: ErrorCount) -> Dots {
    Dots { counted: errors.counted, all: solution.flags.len() }
}

/// The tried tilts of a journal's lines. `given` are the decomposition seeds, and where each comes from.
#[must_use]
pub fn of_lines(lines: &[Line], given: (&[Seed], &[Source])) -> Vec<Tried> {
    let mut tried: Vec<Tried> = Vec::new();
    for line in lines {
        let Line { number, round, seed, .. } = *line;
        let source = source(&tried, round, &seed, given);
        let scored = match line.outcome {
            Recorded::Skipped(_) => None,
            Recorded::Scored(fields) => {
                Some(Scored { camera: fields.camera(), mean: fields.mean_reproj_error, rms: None })
            }
        };
        let outcome = line.outcome();
        tried.push(Tried { number, round, source, seed, outcome, scored, dots: None });
    }
    tried
}

/// Where a seed comes from: a later round lies around the best of the round before, or where that has none, of all.
fn source(
    tried: &[Tried],
    round: usize,
    seed: &Seed,
    (given, sources): (&[Seed], &[Source]),
) -> Source {
    if round > 0 {
        let before = tried.iter().filter(|one| one.round + 1 == round);
        let centre = best(before).or(best(tried.iter().filter(|one| one.round < round)));
        return Source::Around(centre.map_or(0, |one| one.number));
    }
    let same = |other: &Seed| other.numbers().map(f64::to_bits) == seed.numbers().map(f64::to_bits);
    let place = given.iter().position(same);
    place.and_then(|place| sources.get(place)).copied().unwrap_or(Source::Grid)
}

/// The errors that the search counts for a solution.
fn counted(seed: &Seed, solution: &Solution) -> Option<ErrorCount> {
    geometry::count_errors(solution.camera, seed.sensor, solution.rows()).ok()
}

fn fit_of(seed: &Seed, solution: &Solution, errors: ErrorCount) -> Scored {
    let camera = PinholeCamera { dist: solution.camera.dist.damped(), ..solution.camera };
    let mean = errors.sum / errors.counted as f64;
    let errors = row_errors(camera, seed.sensor, solution.rows());
    Scored { camera, mean, rms: Some(rms(errors.iter().flatten())) }
}

/// The earliest of the lowest-scored ones, as the search chooses it.
#[must_use]
pub fn best<'a>(tried: impl IntoIterator<Item = &'a Tried>) -> Option<&'a Tried> {
    let scored = tried.into_iter().filter_map(|one| one.outcome.score().map(|score| (one, score)));
    scored.reduce(|best, new| if new.1 < best.1 { new } else { best }).map(|(one, _)| one)
}

/// The step of the last round, in radians; that of the first where none follows.
#[must_use]
pub fn last_step(options: &Options) -> f64 {
    step_of(options, options.refine_rounds)
}

/// The step of a round after the grid, in radians; it halves from round to round.
#[must_use]
pub fn step_of(options: &Options, round: usize) -> f64 {
    let halvings = round.saturating_sub(1);
    options.refine_step * 0.5f64.powi(i32::try_from(halvings).unwrap_or(i32::MAX))
}

/// How far the rounds together move from a seed, in each tilt, in radians.
#[must_use]
pub fn reach(options: &Options) -> f64 {
    if options.refine_rounds == 0 { 0.0 } else { 2.0 * options.refine_step - last_step(options) }
}
