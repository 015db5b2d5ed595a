//! A search that goes on from its journal.

use crate::{Inputs, LineRefusal, Search, StartError};
use std::fmt::{Display, Formatter, Result as FmtResult};

/// What ended the lines that were kept.
#[derive(Clone, Copy, Debug, PartialEq, Eq)]
pub enum EndedBy {
    /// Nothing: the whole journal was kept.
    Nothing,
    /// What follows has no newline: it was cut off while it was written.
    MissingNewline,
    /// 29: what follows isn't a line.
    NotALine,
    /// 30: the line that follows isn't the run's.
    NotTheRun,
}

impl EndedBy {
    pub(crate) fn of_number(number: u8) -> Self {
        match number {
            0 => Self::Nothing,
            1 => Self::MissingNewline,
            29 => Self::NotALine,
            30 => Self::NotTheRun,
            _ => unreachable!("nothing ends lines with {number}"),
        }
    }
}

impl Display for EndedBy {
    fn fmt(&self, f: &mut Formatter) -> FmtResult {
        match self {
            Self::Nothing => f.write_str("the whole journal was kept"),
            Self::MissingNewline => f.write_str("the next line was cut off"),
            Self::NotALine => LineRefusal::NotALine.fmt(f),
            Self::NotTheRun => LineRefusal::NotTheRun.fmt(f),
        }
    }
}

/// What was kept of a journal, and what was dropped.
#[derive(Clone, Copy, Debug, PartialEq, Eq)]
pub struct KeptLines {
    /// How many lines were kept.
    pub lines: usize,
    /// How many bytes they have, newlines included.
    pub kept: usize,
    /// How many bytes follow them.
    pub dropped: usize,
    /// What ended them.
    pub ended_by: EndedBy,
}

/// A search that goes on, and what it goes on from.
#[derive(Clone, Debug)]
#[must_use = "a search tries nothing before it is run"]
pub struct Resumed {
    /// The search, as the kept lines leave it.
    pub search: Search,
    /// What was kept.
    pub kept_lines: KeptLines,
}

impl Search {
    /// Goes on after a power loss, from what the search started from and its journal: the longest front of whole lines that
    /// [`super::replay`] accepts is kept. Given the same answers, the search ends as if it had never been switched off. A journal that
    /// was cut anywhere loses only the line that the cut fell in.
    ///
    /// New lines belong directly behind the kept bytes, so cut the journal to them first. [`super::JournalWriter::resume`] does so.
    ///
    /// # Errors
    ///
    /// The inputs are refused, as [`Search::start`] refuses them.
    ///
    /// # Panics
    ///
    /// The linked library isn't of this crate's version ([`crate::check_version`]).
    pub fn resume(inputs: &Inputs, journal: &[u8]) -> Result<Resumed, StartError> {
        let (resumed, list) =
            inputs.lent(|inputs, list| crate::record::resume(inputs, journal, list));
        let (run, kept_lines) = resumed?;
        Ok(Resumed { search: Self::of_parts(run, list), kept_lines })
    }
}
