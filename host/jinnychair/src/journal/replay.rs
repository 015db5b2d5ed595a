//! A journal run again, without its host.

use super::line::{Line, Recorded, ScoredFields, read_line};
use super::resume::{EndedBy, Resumed};
use crate::geometry::{principal_point_complexity, tilt_complexity};
use crate::{Handed, Inputs, ReplayError, Search, Seed, record};
use std::fmt::{Display, Formatter, Result as FmtResult};

/// How a journal's run ends, from its lines alone.
#[derive(Clone, Copy, Debug, PartialEq)]
#[must_use]
pub enum Replayed {
    /// The run is over, and this candidate won.
    Winner {
        /// The candidate's number; its line is the one after so many others.
        number: usize,
        /// Its score.
        score: f64,
    },
    /// 11: the run is over, and no candidate was scored.
    NothingScored,
    /// The lines run out before the run is over; this seed comes next.
    Unfinished(Seed),
}

/// Runs a journal again from what its search started from: each line must have the number, round and seed that the search hands
/// out next, and what it records takes the place of the host's answer. For a journal that a search wrote, the winner, every seed and every
/// round are those of that search.
///
/// A changed journal isn't always found: the camera of a line counts only for the list of the next round, if it is the best of
/// its own.
///
/// # Errors
///
/// The inputs are refused, or a line is refused.
///
/// # Panics
///
/// The linked library isn't of this crate's version ([`crate::check_version`]).
pub fn replay(inputs: &Inputs, journal: &[u8]) -> Result<Replayed, ReplayError> {
    inputs.lent(|inputs, list| record::replay(inputs, journal, list)).0
}

/// Why a line isn't the run's. `Display` says it in words.
#[derive(Clone, Copy, Debug, PartialEq)]
#[non_exhaustive]
pub enum Difference {
    /// The run was over before it.
    RunOver,
    /// It has another number.
    Number {
        /// The line's.
        recorded: usize,
        /// The run's.
        expected: usize,
    },
    /// It has another round.
    Round {
        /// The line's.
        recorded: usize,
        /// The run's.
        expected: usize,
    },
    /// It has another seed.
    Seed {
        /// Which of the six numbers is the first that differs.
        name: &'static str,
        /// The line's.
        recorded: f64,
        /// The run's.
        expected: f64,
    },
    /// A number of its camera isn't finite, or a focal length isn't above 0.
    Camera,
    /// A tangential factor lies beyond the 0.05 that damping leaves.
    Tangential {
        /// Which one.
        name: &'static str,
        /// The line's.
        recorded: f64,
    },
    /// Its mean error isn't finite, or it is below 0.
    Mean {
        /// The line's.
        recorded: f64,
    },
    /// It has another score.
    Score {
        /// The line's.
        recorded: f64,
        /// What its mean, camera, seed and the observed centre give.
        expected: f64,
    },
}

/// Says why the first line that [`replay`] refuses with 30 isn't the run's; nothing where it refuses none so. This is for people:
/// the replay is what decides.
#[must_use]
pub fn what_differs(inputs: &Inputs, journal: &[u8]) -> Option<Difference> {
    let Resumed { mut search, kept_lines } = Search::resume(inputs, journal).ok()?;
    if kept_lines.ended_by != EndedBy::NotTheRun {
        return None;
    }
    let (recorded, _) = read_line(journal, kept_lines.kept).ok()??;
    let Ok(Handed::Candidate { number, seed }) = search.next() else {
        return Some(Difference::RunOver);
    };
    let expected = Line { number, round: search.round(), seed, ..recorded };
    of_place(&recorded, &expected).or_else(|| match recorded.outcome {
        Recorded::Scored(fields) => of_fields(&fields, seed, inputs),
        Recorded::Skipped(_) => None,
    })
}

const SEED: [&str; 6] = ["fx", "fy", "cx", "cy", "tilt x", "tilt y"];

/// Bit by bit, except that any NaN equals any other.
fn same(a: f64, b: f64) -> bool {
    a.to_bits() == b.to_bits() || (a.is_nan() && b.is_nan())
}

fn of_place(recorded: &Line, expected: &Line) -> Option<Difference> {
    if recorded.number != expected.number {
        let (recorded, expected) = (recorded.number, expected.number);
        return Some(Difference::Number { recorded, expected });
    }
    if recorded.round != expected.round {
        let (recorded, expected) = (recorded.round, expected.round);
        return Some(Difference::Round { recorded, expected });
    }
    let pairs = recorded.seed.numbers().into_iter().zip(expected.seed.numbers());
    let mut named = SEED.into_iter().zip(pairs);
    let (name, (recorded, expected)) = named.find(|(_, (a, b))| !same(*a, *b))?;
    Some(Difference::Seed { name, recorded, expected })
}

/// What a scored line's numbers must be.
fn of_fields(fields: &ScoredFields, seed: Seed, inputs: &Inputs) -> Option<Difference> {
    let ScoredFields { score, mean_reproj_error: mean, k, p1, p2 } = *fields;
    let is_finite = [k.fx, k.fy, k.cx, k.cy, p1, p2].iter().all(|number| number.is_finite());
    if !(is_finite && k.fx > 0.0 && k.fy > 0.0) {
        return Some(Difference::Camera);
    }
    if let Some((name, recorded)) = [("p1", p1), ("p2", p2)].into_iter().find(|p| p.1.abs() > 0.05)
    {
        return Some(Difference::Tangential { name, recorded });
    }
    if !(mean.is_finite() && mean >= 0.0) {
        return Some(Difference::Mean { recorded: mean });
    }
    let expected = mean
        + fields.camera().dist.complexity()
        + tilt_complexity(seed.sensor)
        + principal_point_complexity(k, inputs.center);
    (!same(score, expected)).then_some(Difference::Score { recorded: score, expected })
}

impl Display for Difference {
    fn fmt(&self, f: &mut Formatter) -> FmtResult {
        match self {
            Self::RunOver => f.write_str("the run was over before this line"),
            Self::Number { recorded, expected } => {
                write!(f, "the line's number is {recorded}; the next candidate is no. {expected}")
            }
            Self::Round { recorded, expected } => {
                write!(f, "the line's round is {recorded}; the run is in round {expected}")
            }
            Self::Seed { name, recorded, expected } => {
                write!(f, "the seed's {name} is {recorded:?}; the run hands out {expected:?}")
            }
            Self::Camera => f.write_str(
                "a number of the scored camera isn't finite, or a focal length isn't above 0",
            ),
            Self::Tangential { name, recorded } => {
                write!(f, "the scored camera's {name} is {recorded:?}, which is beyond 0.05")
            }
            Self::Mean { recorded } => {
                write!(f, "the mean error is {recorded:?}, which isn't finite or is below 0")
            }
            Self::Score { recorded, expected } => {
                write!(f, "the score is {recorded:?}; the line's own numbers give {expected:?}")
            }
        }
    }
}
