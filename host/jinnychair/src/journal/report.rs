//! The report: how many candidates were scored, and how many were skipped for each reason.

use super::line::Line;
use crate::record::Counts;
use crate::{Outcome, ReportError, SkipReason, raw};
use std::borrow::Borrow;

/// How many bytes a buffer needs for a report, however short that is.
pub const REPORT_ROOM: usize = 24;

impl Counts {
    /// The counts of a journal's lines, for a journal without its search. For a whole journal they are the search's own.
    ///
    /// ```
    /// use jinnychair::{Counts, journal};
    /// let journal = b"0,0,3ff0000000000000,3ff0000000000000,0000000000000000,0000000000000000,\
    ///     0000000000000000,0000000000000000,H,-,-,-,-,-,-,-,-\n";
    /// let lines = journal::lines(journal).collect::<Result<Vec<_>, _>>()?;
    /// assert_eq!(Counts::of(&lines).report_line()?, "0,1,0,0,0,1\n");
    /// # Ok::<(), Box<dyn std::error::Error>>(())
    /// ```
    #[must_use]
    pub fn of(lines: impl IntoIterator<Item = impl Borrow<Line>>) -> Self {
        let mut counts = Self::default();
        for line in lines {
            *counts.of_outcome(line.borrow().outcome()) += 1;
        }
        counts
    }

    fn of_outcome(&mut self, outcome: Outcome) -> &mut usize {
        match outcome {
            Outcome::Scored(_) => &mut self.scored,
            Outcome::Skipped(SkipReason::HostFailed) => &mut self.host_failed,
            Outcome::Skipped(SkipReason::BadCamera) => &mut self.bad_camera,
            Outcome::Skipped(SkipReason::NoMean) => &mut self.no_mean,
            Outcome::Skipped(SkipReason::NoNumber) => &mut self.no_number,
        }
    }

    /// How many were skipped for a reason.
    #[must_use]
    pub fn skipped(&self, reason: SkipReason) -> usize {
        match reason {
            SkipReason::HostFailed => self.host_failed,
            SkipReason::BadCamera => self.bad_camera,
            SkipReason::NoMean => self.no_mean,
            SkipReason::NoNumber => self.no_number,
        }
    }

    /// All together: the answered candidates. For counts that no search has, whose sum is too large for a number, the largest number.
    #[must_use]
    pub fn total(&self) -> usize {
        let skipped = SkipReason::ALL.iter().map(|reason| self.skipped(*reason));
        skipped.fold(self.scored, usize::saturating_add)
    }

    /// The report's line with its newline: scored, the skipped ones by their reason, and the total, with commas between them.
    ///
    /// # Errors
    ///
    /// The total is above the 656 answers that a search can have.
    pub fn report_line(&self) -> Result<String, ReportError> {
        let mut buffer = [0; REPORT_ROOM];
        let len = write_report(self, &mut buffer)?;
        Ok(buffer[..len].iter().copied().map(char::from).collect())
    }
}

/// Writes a report's line with its newline to the front of a buffer of at least 24 bytes, and gives how many bytes it has: 12 to 24.
///
/// # Errors
///
/// The buffer is too short or the total above 656, and the buffer is as it was.
pub fn write_report(counts: &Counts, to: &mut [u8]) -> Result<usize, ReportError> {
    let reply = raw::journal::write_report(*counts, to);
    ReportError::check(reply.number).map(|()| reply.len)
}
