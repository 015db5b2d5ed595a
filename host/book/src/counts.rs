//! How many candidates had which outcome, and the report (docs/SPECIFICATION.md, 6.10 and 8.5).

use crate::{Book, Entry, Outcome};

/// The buffer must have this many bytes, however short the report is.
const REPORT_ROOM: usize = 24;
const MOST_ANSWERS: u128 = 656;

/// How many candidates were scored, and how many skipped for the reasons 1 to 4.
#[derive(Clone, Copy, Debug, Default, PartialEq, Eq)]
pub struct Counts {
    /// Those with a score.
    pub scored: usize,
    /// Those without, by their reason.
    pub skipped: [usize; 4],
}

impl Counts {
    /// Counts entries.
    pub fn of(entries: &[Entry]) -> Self {
        let outcomes = entries.iter().map(|entry| entry.outcome);
        let with = |reason| outcomes.clone().filter(|o| *o == Outcome::Skipped(reason)).count();
        let scored = outcomes.clone().filter(|o| matches!(o, Outcome::Scored(_))).count();
        Self { scored, skipped: [1, 2, 3, 4].map(with) }
    }

    /// The five in their order.
    pub fn numbers(&self) -> [usize; 5] {
        let [host_failed, bad_camera, no_mean, no_number] = self.skipped;
        [self.scored, host_failed, bad_camera, no_mean, no_number]
    }
}

impl Book {
    /// Those of the answered candidates.
    pub fn counts(&self) -> Counts {
        Counts::of(self.entries())
    }
}

/// The report's line, to be written to a buffer of so many bytes.
///
/// # Errors
///
/// 28: the buffer is too short, or the total is above what a run can have.
pub fn write_report(counts: &Counts, room: usize) -> Result<Vec<u8>, u8> {
    // Wide enough for five of the largest numbers.
    let numbers = counts.numbers().map(|number| number as u128);
    let total = numbers.iter().sum::<u128>();
    if room < REPORT_ROOM || total > MOST_ANSWERS {
        return Err(28);
    }
    let fields = numbers.iter().chain([&total]).map(u128::to_string);
    Ok((fields.collect::<Vec<_>>().join(",") + "\n").into_bytes())
}
