//! A journal's lines: written, and read back.

use crate::record::FlatLine;
use crate::{
    BrownConrady5, FxFyCxCy, LineRefusal, Outcome, PinholeCamera, Seed, SkipReason, WriteError, raw,
};
use std::error::Error;
use std::fmt::{Display, Formatter, Result as FmtResult};

/// What a line says of a scored candidate.
#[derive(Clone, Copy, Debug, PartialEq)]
pub struct ScoredFields {
    /// The mean and the penalties.
    pub score: f64,
    /// The mean error of the counted rows, in pixels.
    pub mean_reproj_error: f64,
    /// The camera's focal lengths and centre.
    pub k: FxFyCxCy,
    /// The camera's first tangential factor, damped.
    pub p1: f64,
    /// The second.
    pub p2: f64,
}

impl ScoredFields {
    /// The camera; its radial distortion is 0, as damping leaves it.
    #[must_use]
    pub fn camera(&self) -> PinholeCamera {
        let dist = BrownConrady5 { p1: self.p1, p2: self.p2, ..BrownConrady5::default() };
        PinholeCamera { k: self.k, dist }
    }
}

/// The outcome that a line records.
#[derive(Clone, Copy, Debug, PartialEq)]
pub enum Recorded {
    /// It was compared by its score.
    Scored(ScoredFields),
    /// It was left out.
    Skipped(SkipReason),
}

/// The line of an answered candidate.
#[derive(Clone, Copy, Debug, PartialEq)]
pub struct Line {
    /// The candidate's number, at most 655.
    pub number: usize,
    /// The round that it was handed out in, at most 16.
    pub round: usize,
    /// Its seed.
    pub seed: Seed,
    /// What became of it.
    pub outcome: Recorded,
}

impl Line {
    /// The outcome without the camera.
    #[must_use]
    pub fn outcome(&self) -> Outcome {
        match self.outcome {
            Recorded::Scored(fields) => Outcome::Scored(fields.score),
            Recorded::Skipped(reason) => Outcome::Skipped(reason),
        }
    }
}

const NO_FIELDS: ScoredFields = ScoredFields {
    score: 0.0,
    mean_reproj_error: 0.0,
    k: FxFyCxCy { fx: 0.0, fy: 0.0, cx: 0.0, cy: 0.0 },
    p1: 0.0,
    p2: 0.0,
};

impl From<Line> for FlatLine {
    fn from(line: Line) -> Self {
        let Line { number, round, seed, .. } = line;
        let (skipped, fields) = match line.outcome {
            Recorded::Scored(fields) => (0, fields),
            Recorded::Skipped(reason) => (reason.number(), NO_FIELDS),
        };
        let ScoredFields { score, mean_reproj_error: mean, k, p1, p2 } = fields;
        Self { number, round, seed, skipped, score, mean, k, p1, p2 }
    }
}

impl From<FlatLine> for Line {
    fn from(flat: FlatLine) -> Self {
        let FlatLine { number, round, seed, skipped, score, mean, k, p1, p2 } = flat;
        let fields = ScoredFields { score, mean_reproj_error: mean, k, p1, p2 };
        let outcome = match skipped {
            0 => Recorded::Scored(fields),
            reason => Recorded::Skipped(SkipReason::of_number(reason)),
        };
        Self { number, round, seed, outcome }
    }
}

/// How many bytes a buffer needs for a line, however short that is.
pub const LEAST_ROOM: usize = 256;

/// Writes a line with its newline to the front of a buffer of at least 256 bytes, and gives how many bytes it has: 124 to 247.
///
/// # Errors
///
/// The line can't be written, and the buffer is as it was.
pub fn write_line(line: &Line, to: &mut [u8]) -> Result<usize, WriteError> {
    let reply = raw::journal::write_line((*line).into(), to);
    WriteError::check(reply.number).map(|()| reply.len)
}

/// A line of a journal that is refused.
#[derive(Clone, Copy, Debug, PartialEq, Eq)]
pub struct JournalError {
    /// The line, counted from 1.
    pub line: usize,
    /// Why it isn't.
    pub refusal: LineRefusal,
}

impl Display for JournalError {
    fn fmt(&self, f: &mut Formatter) -> FmtResult {
        write!(f, "line {}: {}", self.line, self.refusal)
    }
}

impl Error for JournalError {}

/// Reads the line that stands at a position of a journal, and gives it with the position behind it; nothing at the end.
///
/// # Errors
///
/// What stands there isn't a line.
pub fn read_line(journal: &[u8], at: usize) -> Result<Option<(Line, usize)>, JournalError> {
    let reply = raw::journal::read_line(journal, at);
    let line = reply.line_number;
    LineRefusal::check(reply.number).map_err(|refusal| JournalError { line, refusal })?;
    Ok((reply.end == 0).then(|| (reply.line.into(), reply.next)))
}

/// The lines of a journal, one after the other.
#[derive(Clone, Debug)]
pub struct Lines<'a> {
    journal: &'a [u8],
    at: usize,
    is_refused: bool,
}

/// The lines of a journal. Where something isn't a line, its error is the last that is given.
#[must_use]
pub fn lines(journal: &[u8]) -> Lines<'_> {
    Lines { journal, at: 0, is_refused: false }
}

impl Lines<'_> {
    /// How many bytes the lines given so far have.
    #[must_use]
    pub fn position(&self) -> usize {
        self.at
    }
}

impl Iterator for Lines<'_> {
    type Item = Result<Line, JournalError>;

    fn next(&mut self) -> Option<Self::Item> {
        if self.is_refused {
            return None;
        }
        match read_line(self.journal, self.at) {
            Ok(found) => found.map(|(line, next)| {
                self.at = next;
                Ok(line)
            }),
            Err(error) => {
                self.is_refused = true;
                Some(Err(error))
            }
        }
    }
}
