//! The search over a record that the caller keeps: each call takes the record and the seed list, and gives the record back.
//!
//! Any record and any list are answered: a record that no search can have made is answered as a run that ended with nothing
//! scored. But the theorem about whole runs speaks of a record and a list that are passed on as the calls before left them.
//! [`crate::Search`] keeps both where nothing else reaches them.

use crate::journal::{EndedBy, KeptLines, Line, Replayed};
use crate::{
    AnswerError, Finding, FxFyCxCy, Handed, NextError, Outcome, Pt2, ReplayError, ResultError,
    Rows, Seed, SkipReason, StartError, StopError, Stopped, Winner, check_version, raw,
};

/// The numbers of a search's options. The tilts of its grid are passed separately.
#[derive(Clone, Copy, Debug, PartialEq)]
#[repr(C)]
pub struct Options {
    /// How many rounds follow round 0.
    pub refine_rounds: usize,
    /// The first of these rounds' step, in radians.
    pub refine_step: f64,
    /// The bound on either tilt, in radians.
    pub max_abs_tilt: f64,
    /// Not 0 where the tilt about y is fixed at 0.
    pub one_axis: u8,
    /// How many per cent of its rows must be counted for a candidate to be scored.
    pub min_counted: usize,
}

/// How far a run has come.
#[derive(Clone, Copy, Debug, PartialEq)]
#[repr(C)]
pub struct Place {
    /// How many numbers the seed list must have.
    pub demand: usize,
    /// The current round.
    pub round: usize,
    /// The step that the current list was made with; 0 in round 0.
    pub step: f64,
    /// How many seeds the current list has.
    pub len: usize,
    /// How many of them are answered.
    pub at: usize,
    /// The next candidate's number.
    pub number: usize,
    /// Not 0 once the run is over.
    pub over: u8,
}

/// The seed that was handed out and isn't answered yet.
#[derive(Clone, Copy, Debug, PartialEq)]
#[repr(C)]
pub struct Waiting {
    /// Not 0 while a seed waits.
    pub is_waiting: u8,
    /// The seed as it was handed out.
    pub seed: Seed,
}

/// The best of a round or run so far.
#[derive(Clone, Copy, Debug, PartialEq)]
#[repr(C)]
pub struct Best {
    /// Not 0 once there is one.
    pub found: u8,
    /// The candidate.
    pub candidate: Winner,
}

/// The fields of a journal's line as numbers.
#[derive(Clone, Copy, Debug, PartialEq)]
#[repr(C)]
pub struct FlatLine {
    /// The candidate's number.
    pub number: usize,
    /// The round that it was handed out in.
    pub round: usize,
    /// Its seed.
    pub seed: Seed,
    /// 0 where it was scored; otherwise the reason, and the numbers below are 0.
    pub skipped: u8,
    /// Its score.
    pub score: f64,
    /// Its mean error, in pixels.
    pub mean: f64,
    /// Its camera.
    pub k: FxFyCxCy,
    /// Its camera's tangential distortion, damped.
    pub p1: f64,
    /// The same.
    pub p2: f64,
}

/// The journal's line of the last answered candidate.
#[derive(Clone, Copy, Debug, PartialEq)]
#[repr(C)]
pub struct LastLine {
    /// Not 0 once there is one.
    pub found: u8,
    /// The line.
    pub line: FlatLine,
}

/// How many candidates of a run are scored, and how many are skipped for each reason.
#[derive(Clone, Copy, Debug, Default, PartialEq, Eq)]
#[repr(C)]
pub struct Counts {
    /// Those with a score.
    pub scored: usize,
    /// Those for which the host sent Failed.
    pub host_failed: usize,
    /// Those whose camera isn't one.
    pub bad_camera: usize,
    /// Those with too few counted rows, or without a finite mean.
    pub no_mean: usize,
    /// Those whose score isn't a number.
    pub no_number: usize,
}

/// A run.
#[derive(Clone, Copy, Debug, PartialEq)]
#[repr(C)]
pub struct Run {
    /// The options.
    pub options: Options,
    /// The observed centre.
    pub center: Pt2,
    /// How far the run has come.
    pub place: Place,
    /// The seed that waits.
    pub waiting: Waiting,
    /// The current round's best.
    pub round_best: Best,
    /// The run's best.
    pub run_best: Best,
    /// The last answered line.
    pub last: LastLine,
    /// How many answers had which outcome.
    pub counts: Counts,
}

/// How far a search has come, in numbers for a progress bar. The answer to a round's last seed opens the next round, so that
/// these are then the next round's; once the search is over, they are the last round's.
#[derive(Clone, Copy, Debug, Default, PartialEq, Eq)]
#[repr(C)]
pub struct Progress {
    /// The current round.
    pub round: usize,
    /// How many rounds follow round 0.
    pub rounds: usize,
    /// How many seeds of the current round are answered.
    pub answered: usize,
    /// How many seeds the current round has. After round 0, with a step from 1e-11 to 1, these are exactly the tilts about x
    /// times the tilts about y that lie within the bound.
    pub total: usize,
    /// How many seeds of the whole run are answered.
    pub answered_in_run: usize,
}

/// What a run starts from.
#[derive(Clone, Copy, Debug)]
pub struct Inputs<'a> {
    /// How many views of the plate there are.
    pub views: usize,
    /// The options' numbers.
    pub options: Options,
    /// The tilts about x of round 0's grid, in radians.
    pub tilt_x_seeds: &'a [f64],
    /// The tilts about y of round 0's grid, in radians.
    pub tilt_y_seeds: &'a [f64],
    /// The host's decomposition seeds, six numbers each.
    pub decomposition: &'a [f64],
    /// The camera of the grid's seeds.
    pub base: FxFyCxCy,
    /// The observed centre.
    pub center: Pt2,
}

/// Starts a run; round 0's list is written to the front of `list`.
///
/// # Errors
///
/// The inputs are refused, and the list is as it was.
///
/// # Panics
///
/// The linked library isn't of this crate's version.
pub fn start(inputs: &Inputs, list: &mut [f64]) -> Result<Run, StartError> {
    demand_version();
    let reply = raw::start(inputs, list);
    StartError::check(reply.number).map(|()| reply.run)
}

/// An archive of another version has other structs.
fn demand_version() {
    if let Err(error) = check_version() {
        panic!("{error}");
    }
}

/// Hands out the list's next seed.
///
/// # Errors
///
/// No seed is handed out, and the run is as it was.
pub fn next(run: &mut Run, list: &[f64]) -> Result<Handed, NextError> {
    let reply = raw::next(*run, list);
    *run = reply.run;
    NextError::check(reply.number)?;
    Ok(if reply.over == 0 {
        Handed::Candidate { number: reply.candidate, seed: run.waiting.seed }
    } else {
        Handed::Over
    })
}

/// The waiting seed's six numbers as they stand in the list; nothing where no seed waits or the list is too short.
#[must_use]
pub fn seed(run: &Run, list: &[f64]) -> Option<[f64; 6]> {
    let mut numbers = [0.0; 6];
    (raw::seed(*run, list, &mut numbers) == 6).then_some(numbers)
}

/// Takes the host's finding for the waiting seed. The last answer of a round writes the next list to the front of `list`.
///
/// # Errors
///
/// The answer is refused; the run and the list are as they were.
pub fn answer(run: &mut Run, finding: &Finding, list: &mut [f64]) -> Result<Outcome, AnswerError> {
    let (is_solved, solved, rows) = match *finding {
        Finding::Failed => (0, raw::NOT_SOLVED, Rows { numbers: &[], flags: &[] }),
        Finding::Solved { camera, rows } => (1, camera, rows),
    };
    let reply = raw::answer(*run, is_solved, solved, rows, list);
    *run = reply.run;
    AnswerError::check(reply.number)?;
    Ok(match reply.skipped {
        0 => Outcome::Scored(reply.score),
        reason => Outcome::Skipped(SkipReason::of_number(reason)),
    })
}

/// The run's best, once it is over.
///
/// # Errors
///
/// The run isn't over, or nothing was scored.
pub fn result(run: &Run) -> Result<Winner, ResultError> {
    let reply = raw::result(*run);
    ResultError::check(reply.number).map(|()| reply.candidate)
}

/// How far the run has come. Of a record that no search can have made all numbers are 0.
#[must_use]
pub fn progress(run: &Run) -> Progress {
    raw::jc_progress(*run)
}

/// How the run stands: the best so far, and how much its round could still gain. Nothing changes, and the run can go on.
///
/// # Errors
///
/// Less of the list is lent than [`start`] needed.
pub fn stop(run: &Run, list: &[f64]) -> Result<Stopped, StopError> {
    let reply = raw::stop(*run, list);
    StopError::check(reply.number)?;
    Ok(Stopped {
        best: (reply.has_best != 0).then_some(reply.best),
        floor: (reply.has_floor != 0).then_some(reply.floor),
        no_gain: reply.no_gain != 0,
    })
}

/// The journal's line of the last answered candidate; nothing before the first answer.
#[must_use]
pub fn last_line(run: &Run) -> Option<Line> {
    let reply = raw::journal::jc_last_line(*run);
    (reply.found != 0).then(|| reply.line.into())
}

/// How many candidates are scored, and how many skipped for each reason. Of a record that no search can have made all are 0.
#[must_use]
pub fn counts(run: &Run) -> Counts {
    raw::jc_counts(*run)
}

/// Runs a journal again: its lines take the place of the host's answers.
///
/// # Errors
///
/// The inputs are refused, and the list is as it was; or a line is refused, and the list is as the lines before left it.
///
/// # Panics
///
/// The linked library isn't of this crate's version.
pub fn replay(inputs: &Inputs, journal: &[u8], list: &mut [f64]) -> Result<Replayed, ReplayError> {
    demand_version();
    let reply = raw::replay::replay(inputs, journal, list);
    let line = reply.line_number;
    match reply.number {
        0 if reply.is_over == 0 => Ok(Replayed::Unfinished(reply.next)),
        0 => Ok(Replayed::Winner { number: reply.candidate, score: reply.score }),
        11 => Ok(Replayed::NothingScored),
        29 => Err(ReplayError::NotALine { line }),
        30 => Err(ReplayError::NotTheRun { line }),
        number => Err(ReplayError::Start(StartError::of_number(number))),
    }
}

/// Goes on with the run of a journal that may be cut off: gives the run as the longest front of lines that [`replay`] accepts leaves
/// it, with no seed waiting, and says what was kept and what was dropped. The list is then that run's.
///
/// # Errors
///
/// The inputs are refused, and the list is as it was.
///
/// # Panics
///
/// The linked library isn't of this crate's version.
pub fn resume(
    inputs: &Inputs,
    journal: &[u8],
    list: &mut [f64],
) -> Result<(Run, KeptLines), StartError> {
    demand_version();
    let reply = raw::replay::resume(inputs, journal, list);
    StartError::check(reply.number)?;
    let ended_by = EndedBy::of_number(reply.ended_by);
    let (lines, kept, dropped) = (reply.lines, reply.kept, reply.dropped);
    Ok((reply.run, KeptLines { lines, kept, dropped, ended_by }))
}

/// The better of two bests, the first one where their scores are equal; one that isn't found leaves the other. A score that isn't a
/// number, which no best of a run has, loses to every number.
#[must_use]
pub fn winner(first: Best, second: Best) -> Best {
    raw::jc_winner(first, second)
}
