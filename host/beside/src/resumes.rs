//! Runs that go on from their journals, on both sides: from those of whole runs, cut, damaged, and those of another Start.

use crate::calls::{Pair, differ};
use crate::inputs::for_library;
use crate::lines::damaged;
use crate::record_words::{of_book, of_run};
use crate::replays::another;
use book::Inputs;
use jinnychair::journal::{EndedBy, KeptLines};
use jinnychair::record::{self, Run, answer, next};
use random::Random;
use words::float_words;

/// What was compared.
#[derive(Clone, Copy, Debug, Default)]
pub struct ResumeTally {
    /// Journals that were kept whole, that end in a missing newline, with 29, and with 30.
    pub ended: [usize; 4],
    /// Inputs that were refused.
    pub refused: usize,
    /// Runs that went on to where they had been.
    pub gone_on: usize,
    /// Runs whose journal was cut after each byte.
    pub cut: usize,
}

/// A resumed run with its list and what was kept, or Start's number.
type Resumed = Result<(Run, Vec<f64>, KeptLines), u8>;

fn kind(ended_by: EndedBy) -> usize {
    match ended_by {
        EndedBy::Nothing => 0,
        EndedBy::MissingNewline => 1,
        EndedBy::NotALine => 2,
        EndedBy::NotTheRun => 3,
    }
}

fn of_library((run, kept_lines): &(Run, KeptLines)) -> Vec<u64> {
    let KeptLines { lines, kept, dropped, ended_by } = *kept_lines;
    let kept_lines = [0, lines, kept, dropped, kind(ended_by)].map(|number| number as u64);
    [kept_lines.to_vec(), of_run(run)].concat()
}

fn of_resumed(resumed: &book::Resumed) -> Vec<u64> {
    let kind = match resumed.ended_by {
        book::EndedBy::Nothing => 0,
        book::EndedBy::MissingNewline => 1,
        book::EndedBy::Number(29) => 2,
        book::EndedBy::Number(_) => 3,
    };
    let kept_lines = [0, resumed.lines, resumed.kept, resumed.dropped, kind];
    [kept_lines.map(|number| number as u64).to_vec(), of_book(&resumed.book)].concat()
}

/// Resumes a journal on both sides, with a list that holds these numbers, and gives what the library gave.
///
/// # Errors
///
/// Says where the two sides differ.
pub fn compare(
    inputs: &Inputs,
    journal: &[u8],
    lent: &[f64],
    tally: &mut ResumeTally,
) -> Result<Resumed, String> {
    let (mut list, mut book_list) = (lent.to_vec(), lent.to_vec());
    let library = record::resume(&for_library(inputs), journal, &mut list);
    let library = library.map_err(|error| error.number());
    let book = book::resume(inputs.clone(), journal, &mut book_list);
    match &library {
        Ok((_, kept_lines)) => tally.ended[kind(kept_lines.ended_by)] += 1,
        Err(_) => tally.refused += 1,
    }
    let refused = |number: &u8| vec![1, u64::from(*number)];
    let words = library.as_ref().map_or_else(refused, of_library);
    differ("the resumed run", words, book.as_ref().map_or_else(refused, of_resumed))?;
    differ("the list of a resumed run", float_words(&list), float_words(&book_list))?;
    Ok(library.map(|(run, kept_lines)| (run, list, kept_lines)))
}

/// A run's journal as it is, then in other ways.
///
/// # Errors
///
/// Says where the two sides differ, or which run doesn't go on as it had gone.
pub(crate) fn compare_run(
    pair: &Pair,
    random: &mut Random,
    tally: &mut ResumeTally,
) -> Result<(), String> {
    let (inputs, lent, journal) = (pair.book.inputs(), &pair.lent[..], &pair.journal[..]);
    compare(inputs, journal, lent, tally)?.ok();
    for _ in 0..4 {
        compare(inputs, &damaged(journal, random), lent, tally)?.ok();
        compare(&another(inputs, random), journal, lent, tally)?.ok();
    }
    compare(inputs, journal, &lent[..random.below(lent.len() + 1)], tally)?.ok();
    if pair.is_changed {
        return Ok(());
    }
    for _ in 0..4 {
        cut(pair, random.below(journal.len() + 1), tally)?;
    }
    if pair.book.entries().len() < 3 {
        tally.cut += 1;
        for place in 0..=journal.len() {
            cut(pair, place, tally)?;
        }
    }
    Ok(())
}

/// A journal that was cut loses only the line that the cut fell in, and with the same answers the run goes on as it had gone.
fn cut(pair: &Pair, place: usize, tally: &mut ResumeTally) -> Result<(), String> {
    let (front, inputs) = (&pair.journal[..place], pair.book.inputs());
    let resumed = compare(inputs, front, &pair.lent, tally)?;
    let (mut run, mut list, kept_lines) =
        resumed.map_err(|number| format!("refused with {number}"))?;
    let lines = front.iter().filter(|byte| **byte == b'\n').count();
    let kept = front.iter().rposition(|byte| *byte == b'\n').map_or(0, |last| last + 1);
    let is_whole = kept == place;
    let ended_by = if is_whole { EndedBy::Nothing } else { EndedBy::MissingNewline };
    let expected = KeptLines { lines, kept, dropped: place - kept, ended_by };
    differ("what is kept of a cut journal", kept_lines, expected)?;
    for sent in &pair.answers[lines..] {
        let _ = next(&mut run, &list).map_err(|error| error.to_string())?;
        answer(&mut run, &sent.finding(), &mut list).map_err(|error| error.to_string())?;
    }
    if pair.book.waiting().is_some() {
        let _ = next(&mut run, &list).map_err(|error| error.to_string())?;
    }
    differ("a run that went on", of_run(&run), of_run(&pair.run))?;
    differ("the list of a run that went on", float_words(&list), float_words(&pair.list))?;
    tally.gone_on += 1;
    Ok(())
}
