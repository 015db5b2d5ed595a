//! A search that keeps its record and its list to itself.

use crate::error::{numbered, part};
use crate::journal::Line;
use crate::record::{self, Counts, Progress, Run};
use crate::{
    AnswerError, FxFyCxCy, NextError, PinholeCamera, Pt2, ResultError, RunError, Seed, StartError,
    Winner,
};
use std::fmt::{Display, Formatter, Result as FmtResult};
use std::ops::ControlFlow;

/// Which tilts are tried. Later versions have more options, each with a default: start from [`Options::default`], and
/// change what should differ.
///
/// ```
/// let mut options = jinnychair::Options::default();
/// options.refine_rounds = 6;
/// ```
#[derive(Clone, Debug, PartialEq)]
#[non_exhaustive]
pub struct Options {
    /// The tilts about x of round 0's grid, in radians; 1 to 16 of them.
    pub tilt_x_seeds: Vec<f64>,
    /// The tilts about y of round 0's grid, in radians; 1 to 16 of them.
    pub tilt_y_seeds: Vec<f64>,
    /// How many rounds follow round 0, each around the best candidate of the round before; at most 16.
    pub refine_rounds: usize,
    /// The first of these rounds' step, in radians; it halves from round to round.
    pub refine_step: f64,
    /// The bound on either tilt, in radians; at most 0.5, which is 28.6°.
    pub max_abs_tilt: f64,
    /// Whether the sensor leans about x alone, as on a hinge. Tilt y is then fixed at 0: its list is 0 alone, the
    /// decomposition seeds have no other, and each round after round 0 tries x − step, x and x + step.
    ///
    /// ```
    /// let mut options = jinnychair::Options::default();
    /// (options.one_axis, options.tilt_y_seeds) = (true, vec![0.0]);
    /// ```
    pub one_axis: bool,
    /// How many per cent of its rows must be counted for a candidate to be scored, from 0 to 100: counted rows times 100 are
    /// at least this times all rows. A row is counted where it is in front of the camera and its error is finite. With 0
    /// a single row is enough; a lab that compares tilts should demand most of them.
    pub min_counted: usize,
}

impl Default for Options {
    /// Those of calibration-rs: a grid of about ±9° by ±2°, then two rounds from 0.02 radians on, within 0.3 radians, on both
    /// axes, and however few rows are counted.
    fn default() -> Self {
        Self {
            tilt_x_seeds: vec![-0.16, -0.12, -0.08, -0.04, 0.0, 0.04, 0.08, 0.12, 0.16],
            tilt_y_seeds: vec![-0.04, -0.02, 0.0, 0.02, 0.04],
            refine_rounds: 2,
            refine_step: 0.02,
            max_abs_tilt: 0.3,
            one_axis: false,
            min_counted: 0,
        }
    }
}

impl Options {
    /// The options' numbers, without the tilts of the grid.
    fn numbers(&self) -> record::Options {
        record::Options {
            refine_rounds: self.refine_rounds,
            refine_step: self.refine_step,
            max_abs_tilt: self.max_abs_tilt,
            one_axis: self.one_axis.into(),
            min_counted: self.min_counted,
        }
    }
}

/// What a search starts from.
#[derive(Clone, Copy, Debug, PartialEq)]
pub struct Inputs<'a> {
    /// How many views of the plate there are.
    pub views: usize,
    /// Which tilts are tried.
    pub options: &'a Options,
    /// Seeds that the host found by decomposition; they are tried before the grid. At most 256.
    pub decomposition: &'a [Seed],
    /// The camera of the grid's seeds.
    pub base: FxFyCxCy,
    /// The observed centre.
    pub center: Pt2,
}

impl Inputs<'_> {
    /// Lends them to a call, with a list of the length that the call needs, and returns the list with the reply.
    pub(crate) fn lent<T>(
        &self,
        call: impl FnOnce(&record::Inputs, &mut [f64]) -> T,
    ) -> (T, Vec<f64>) {
        let options = self.options;
        let decomposition: Vec<f64> =
            self.decomposition.iter().flat_map(|seed| seed.numbers()).collect();
        let (xs, ys) = (options.tilt_x_seeds.len(), options.tilt_y_seeds.len());
        // Lists that are too long for a grid are refused, however long the lent list is.
        let room = 54.max(6 * (self.decomposition.len() + xs.saturating_mul(ys).min(256)));
        let mut list = vec![0.0; room];
        let inputs = record::Inputs {
            views: self.views,
            options: options.numbers(),
            tilt_x_seeds: &options.tilt_x_seeds,
            tilt_y_seeds: &options.tilt_y_seeds,
            decomposition: &decomposition,
            base: self.base,
            center: self.center,
        };
        (call(&inputs, &mut list), list)
    }
}

/// The rows that a solved camera is scored by; at most 1,024.
#[derive(Clone, Copy, Debug)]
pub struct Rows<'a> {
    /// Four numbers a row: the ideal point x, y, then the seen pixel u, v.
    pub numbers: &'a [f64],
    /// A flag a row: 1 where the point is in front of the camera, 0 where it isn't. No other value is taken.
    pub flags: &'a [u8],
}

/// What the host found for a seed.
#[derive(Clone, Copy, Debug)]
pub enum Finding<'a> {
    /// No camera.
    Failed,
    /// A camera and the rows to score it by. The search knows the seed's tilts, and works out their sines and cosines itself.
    Solved {
        /// The solved camera.
        camera: PinholeCamera,
        /// The rows.
        rows: Rows<'a>,
    },
}

/// A host's solution for a seed, with rows of its own.
#[derive(Clone, Debug, PartialEq)]
pub struct Solution {
    /// The solved camera.
    pub camera: PinholeCamera,
    /// Four numbers a row: the ideal point x, y, then the seen pixel u, v.
    pub rows: Vec<f64>,
    /// A flag a row: 1 where the point is in front of the camera, 0 where it isn't.
    pub flags: Vec<u8>,
}

impl Solution {
    /// The rows, lent.
    #[must_use]
    pub fn rows(&self) -> Rows<'_> {
        Rows { numbers: &self.rows, flags: &self.flags }
    }

    /// The solution as it is sent.
    #[must_use]
    pub fn finding(&self) -> Finding<'_> {
        Finding::Solved { camera: self.camera, rows: self.rows() }
    }
}

/// Why a candidate isn't scored and what to do, reason by reason, as docs/NUMBERS.md has it.
macro_rules! skip {
    (1 $part:ident) => { part!($part "the host sent Failed", "Look into the host's solution at that tilt. If all are skipped, it is the views.") };
    (2 $part:ident) => { part!($part "a number of the camera isn't finite, or a focal length isn't above 0", "As 1. Radial distortion is set to 0 before the check, so it can't be the cause.") };
    (3 $part:ident) => { part!($part "fewer rows are counted than `min_counted` demands, or the mean error isn't finite: no row in front of the camera, or none with a finite error", "Check the poses' signs and the flags.") };
    (4 $part:ident) => { part!($part "the score isn't a number: the camera's centre lies so far from the observed one that the square of the distance overflows, or the observed centre isn't finite", "Look at the solved centre (cx, cy). If every candidate has this reason, at the observed centre that Start was given.") };
}

numbered! { skip
    /// Why a candidate isn't scored.
    SkipReason {
        HostFailed = 1;
        BadCamera = 2;
        NoMean = 3;
        NoNumber = 4;
    }
}

/// What became of a candidate.
#[derive(Clone, Copy, Debug, PartialEq)]
pub enum Outcome {
    /// Its score: lower is better.
    Scored(f64),
    /// It isn't compared.
    Skipped(SkipReason),
}

impl Outcome {
    /// The score, if it has one.
    #[must_use]
    pub fn score(self) -> Option<f64> {
        match self {
            Self::Scored(score) => Some(score),
            Self::Skipped(_) => None,
        }
    }
}

impl Display for Outcome {
    fn fmt(&self, f: &mut Formatter) -> FmtResult {
        match self {
            Self::Scored(score) => write!(f, "scored {score}"),
            Self::Skipped(reason) => write!(f, "skipped: {reason}"),
        }
    }
}

/// What a call for the next seed gives.
#[derive(Clone, Copy, Debug, PartialEq)]
#[must_use]
pub enum Handed {
    /// A candidate.
    Candidate {
        /// Its number, counted from 0 over the run.
        number: usize,
        /// The seed to solve for.
        seed: Seed,
    },
    /// The run is over and has a result.
    Over,
}

/// A tried seed, as [`Search::run_watched`] shows it.
#[derive(Clone, Copy, Debug, PartialEq)]
#[non_exhaustive]
pub struct Tried<'a> {
    /// The candidate's number.
    pub number: usize,
    /// The round that it was handed out in.
    pub round: usize,
    /// The seed.
    pub seed: Seed,
    /// What the host found, if it did.
    pub solution: Option<&'a Solution>,
    /// What became of it.
    pub outcome: Outcome,
    /// How far the search had come when the seed was handed out; its own answer isn't counted.
    pub progress: Progress,
    /// Its line of the journal.
    pub line: Line,
}

/// How a search stands when it is stopped between two answers. It covers the current round alone: later rounds can score below
/// the floor.
#[derive(Clone, Copy, Debug, PartialEq)]
pub struct Stopped {
    /// The best candidate so far, if any was scored.
    pub best: Option<Winner>,
    /// No candidate from the seeds that the round has left can score below this, whichever camera the host finds: the lowest
    /// tilt penalty among them. Nothing where no seed is left, which is once the search is over.
    pub floor: Option<f64>,
    /// Whether there is a best, and the floor isn't below its score: then the round can gain nothing.
    pub no_gain: bool,
}

/// How a search that can be stopped ends.
#[derive(Clone, Copy, Debug, PartialEq)]
#[must_use]
pub enum Ended {
    /// It came to its end, with this winner.
    Over(Winner),
    /// It was stopped, and can go on.
    Stopped(Stopped),
}

/// A search that is under way.
///
/// It owns its record and its seed list, and only its own calls change them. So each call gets both as the calls before
/// left them, which is the condition of the theorem about whole runs: the replies are those of the reference
/// model (docs/SPECIFICATION.md, chapter 7), every seed that the rules name was handed out, every typed tilt within the bound was
/// tried, and the winner has the lowest score, the earliest of equal ones.
#[derive(Clone, Debug)]
#[must_use = "a search tries nothing before it is run"]
pub struct Search {
    run: Run,
    list: Vec<f64>,
}

impl Search {
    /// Starts a search. [`Search::run`] then runs it, or [`Search::next`] hands out its first seed.
    ///
    /// # Errors
    ///
    /// The inputs are refused.
    ///
    /// # Panics
    ///
    /// The linked library isn't of this crate's version ([`crate::check_version`]).
    pub fn start(inputs: &Inputs) -> Result<Self, StartError> {
        let (started, list) = inputs.lent(record::start);
        Ok(Self { run: started?, list })
    }

    /// A run with the list that belongs to it.
    pub(crate) fn of_parts(run: Run, list: Vec<f64>) -> Self {
        Self { run, list }
    }

    /// Runs the search to its end: `solve` gives a solution for each seed, or nothing where it finds none.
    ///
    /// # Errors
    ///
    /// Nothing was scored, or a solution is refused. Its seed then goes on waiting, and another `run` begins with it.
    pub fn run(
        &mut self,
        solve: impl FnMut(&Seed) -> Option<Solution>,
    ) -> Result<Winner, RunError> {
        self.run_watched(solve, |_| ())
    }

    /// As [`Search::run`]; `watch` gets each tried seed.
    ///
    /// # Errors
    ///
    /// As [`Search::run`].
    pub fn run_watched(
        &mut self,
        solve: impl FnMut(&Seed) -> Option<Solution>,
        mut watch: impl FnMut(&Tried),
    ) -> Result<Winner, RunError> {
        let ended = self.run_until(solve, |tried| {
            watch(tried);
            ControlFlow::Continue(())
        });
        match ended? {
            Ended::Over(winner) => Ok(winner),
            Ended::Stopped(_) => unreachable!("nothing stops it"),
        }
    }

    /// As [`Search::run_watched`]; where `watch` breaks, the search is stopped after that answer. Another `run` goes on with it.
    /// A break after the last answer stops nothing.
    ///
    /// ```
    /// use jinnychair::{Ended, RunError, Search, Seed, Solution, Tried};
    /// use std::ops::ControlFlow::{Break, Continue};
    /// use std::time::{Duration, Instant};
    ///
    /// fn twenty_minutes(
    ///     search: &mut Search,
    ///     solve: impl FnMut(&Seed) -> Option<Solution>,
    /// ) -> Result<(), RunError> {
    ///     let end = Instant::now() + Duration::from_secs(20 * 60);
    ///     let watch = |_: &Tried| if Instant::now() < end { Continue(()) } else { Break(()) };
    ///     match search.run_until(solve, watch)? {
    ///         Ended::Over(winner) => println!("no. {} won", winner.number),
    ///         Ended::Stopped(stopped) if stopped.no_gain => println!("this round can gain nothing"),
    ///         Ended::Stopped(stopped) => println!("nothing left in it scores below {:?}", stopped.floor),
    ///     }
    ///     Ok(())
    /// }
    /// ```
    ///
    /// # Errors
    ///
    /// As [`Search::run`].
    pub fn run_until(
        &mut self,
        mut solve: impl FnMut(&Seed) -> Option<Solution>,
        mut watch: impl FnMut(&Tried) -> ControlFlow<()>,
    ) -> Result<Ended, RunError> {
        loop {
            let (number, seed) = match self.waiting() {
                Some(seed) => (self.answered(), seed),
                None => match self.next()? {
                    Handed::Candidate { number, seed } => (number, seed),
                    Handed::Over => return Ok(Ended::Over(self.result()?)),
                },
            };
            let progress = self.progress();
            let solution = solve(&seed);
            let outcome =
                self.answer(&solution.as_ref().map_or(Finding::Failed, Solution::finding))?;
            let (round, solution) = (progress.round, solution.as_ref());
            let line = self.last_line().expect("an answered candidate has a line");
            let flow = watch(&Tried { number, round, seed, solution, outcome, progress, line });
            if flow.is_continue() {
                continue;
            }
            let stopped = self.stop();
            if stopped.floor.is_some() {
                return Ok(Ended::Stopped(stopped));
            }
        }
    }

    /// Hands out the next seed, or says that the run is over.
    ///
    /// # Errors
    ///
    /// A seed is waiting, or the run ended with nothing scored.
    #[expect(clippy::should_implement_trait, reason = "01 calls it so, and it can fail")]
    pub fn next(&mut self) -> Result<Handed, NextError> {
        record::next(&mut self.run, &self.list)
    }

    /// The seed that waits for its answer.
    #[must_use]
    pub fn waiting(&self) -> Option<Seed> {
        record::seed(&self.run, &self.list).map(Seed::from_numbers)
    }

    /// Takes the host's finding for the waiting seed.
    ///
    /// # Errors
    ///
    /// The finding is refused, and the seed goes on waiting.
    pub fn answer(&mut self, finding: &Finding) -> Result<Outcome, AnswerError> {
        record::answer(&mut self.run, finding, &mut self.list)
    }

    /// The journal's line of the last answered candidate; nothing before the first answer.
    #[must_use]
    pub fn last_line(&self) -> Option<Line> {
        record::last_line(&self.run)
    }

    /// The best candidate, once the run is over.
    ///
    /// # Errors
    ///
    /// The run isn't over, or nothing was scored.
    pub fn result(&self) -> Result<Winner, ResultError> {
        record::result(&self.run)
    }

    /// The current round; once a round has ended, the next one.
    #[must_use]
    pub fn round(&self) -> usize {
        self.run.place.round
    }

    /// How far the search has come.
    #[must_use]
    pub fn progress(&self) -> Progress {
        record::progress(&self.run)
    }

    /// How the search stands, between two answers or while a seed waits: the best so far, and how much the current round could
    /// still gain. Nothing changes, and the search can go on.
    #[must_use]
    pub fn stop(&self) -> Stopped {
        record::stop(&self.run, &self.list).expect("a search lends its whole list")
    }

    /// How many candidates are scored, and how many skipped for each reason; they add up to [`Search::answered`].
    #[must_use]
    pub fn counts(&self) -> Counts {
        record::counts(&self.run)
    }

    /// How many candidates are answered.
    #[must_use]
    pub fn answered(&self) -> usize {
        self.run.place.number
    }
}
