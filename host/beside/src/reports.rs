//! The report on both sides: of runs, of their journals, and of any five numbers.

use crate::calls::differ;
use crate::record_words::{of_book_counts, of_counts};
use book::Book;
use jinnychair::Counts;
use jinnychair::journal::{lines, write_report};
use jinnychair::record::{Run, counts};
use random::Random;

/// What stands behind a report in a buffer.
const UNTOUCHED: u8 = 0xa5;

/// The bytes that the library writes to a buffer of this length; nothing for 28. The rest of the buffer must stay.
fn written(counts: &Counts, room: usize) -> Result<Option<Vec<u8>>, String> {
    let mut buffer = vec![UNTOUCHED; room];
    let reply = write_report(counts, &mut buffer);
    let len = reply.unwrap_or(0);
    if buffer[len..].iter().any(|byte| *byte != UNTOUCHED) {
        return Err(format!("{counts:?} is written beyond its {len} bytes"));
    }
    buffer.truncate(len);
    Ok(reply.is_ok().then_some(buffer))
}

/// The report of a run is the reference model's, and its counts are those of the journal's lines.
///
/// # Errors
///
/// Says where the two sides differ.
pub fn compare_run(run: &Run, book: &Book, journal: &[u8]) -> Result<(), String> {
    let counts = counts(run);
    let report = book::write_report(&book.counts(), 24).ok();
    differ("the report", written(&counts, 24)?, report)?;
    let lines: Vec<_> = lines(journal).filter_map(Result::ok).collect();
    differ("the counts of the lines", of_counts(&Counts::of(lines)), of_counts(&counts))?;
    differ("the counts' total", counts.total(), book.entries().len())
}

/// Writes a report of drawn counts, and says whether it was written.
///
/// # Errors
///
/// Says where the two sides differ.
pub fn compare_drawn(random: &mut Random) -> Result<bool, String> {
    let mut count = || match random.below(12) {
        0 => random.pick(&[655, 656, 657, 1 << 32, 1 << 63, usize::MAX]),
        1..4 => random.pick(&[99, 100, 99, 9, 10, 109]),
        _ => random.below(150),
    };
    let (scored, skipped) = (count(), [count(), count(), count(), count()]);
    let [host_failed, bad_camera, no_mean, no_number] = skipped;
    let library = Counts { scored, host_failed, bad_camera, no_mean, no_number };
    let counts = book::Counts { scored, skipped };
    differ("the five counts", of_counts(&library), of_book_counts(&counts))?;
    let room = random.pick(&[0, 12, 23, 24, 24, 24, 24, 25, 99]);
    let report = written(&library, room)?;
    let book = book::write_report(&counts, room).ok();
    differ(&format!("{counts:?} in {room} bytes"), &report, &book)?;
    Ok(report.is_some())
}
