//! A journal on the disk with the inputs beside it, as this program writes and reads them.

use crate::choices::Choices;
use crate::drive::{Source, of_lines};
use crate::files::read_bytes;
use crate::table::Record;
use jinnychair::journal::{JournalError, Line, StoredInputs, inputs_path, lines};
use jinnychair::{LineRefusal, Seed};
use std::path::Path;

/// How a journal ends behind its lines.
#[derive(Clone, Copy, Debug, PartialEq, Eq)]
pub enum Ending {
    /// With the last of them.
    Whole,
    /// With a part of the line of this number.
    Cut(usize),
    /// With what isn't a line.
    Bad(JournalError),
}

/// The lines of a journal, as far as they are lines.
#[derive(Clone, Debug, PartialEq)]
pub struct Journal {
    /// The lines.
    pub lines: Vec<Line>,
    /// What follows them.
    pub ending: Ending,
    /// What another program did to the file, if that is seen.
    pub changed: Option<(&'static str, &'static str)>,
}

impl Journal {
    /// Reads a journal's file; a search may be writing to it.
    ///
    /// # Errors
    ///
    /// Names the file and why it can't be read.
    pub fn read(path: &Path) -> Result<Self, String> {
        Ok(Self::parse(&read_bytes(path)?))
    }

    /// Reads a journal's bytes.
    #[must_use]
    pub fn parse(bytes: &[u8]) -> Self {
        let (mut good, mut left, changed) = (vec![], lines(bytes), changed(bytes));
        let ending = loop {
            let at = left.position();
            match left.next() {
                None => break Ending::Whole,
                Some(Ok(line)) => good.push(line),
                Some(Err(error)) if changed.is_some() || !is_cut(&bytes[at..]) => {
                    break Ending::Bad(error);
                }
                Some(Err(error)) => break Ending::Cut(error.line),
            }
        };
        Self { lines: good, ending, changed }
    }

    /// The first line that isn't one, counted from 1, and why; a last line that was cut off is none of these.
    #[must_use]
    pub fn bad_line(&self) -> Option<(usize, String)> {
        let Ending::Bad(error) = self.ending else { return None };
        let (why, remedy) = self.not_a_line();
        Some((error.line, format!("{why}. {remedy}")))
    }

    /// Why a line isn't one, with the number, and what to do.
    #[must_use]
    pub fn not_a_line(&self) -> (String, &'static str) {
        let refusal = LineRefusal::NotALine;
        let (why, remedy) = self.changed.unwrap_or((refusal.fault(), refusal.remedy()));
        (format!("{why} ({})", refusal.number()), remedy)
    }

    /// What is to be said of the end, if anything.
    #[must_use]
    pub fn ending_text(&self) -> Option<String> {
        match self.ending {
            Ending::Whole => None,
            Ending::Cut(line) => Some(format!(
                "line {line} has no end: it was cut off, or is being written. It is left out"
            )),
            Ending::Bad(_) => self.bad_line().map(|(line, why)| {
                format!("line {line}: {why} It and all that follows are left out")
            }),
        }
    }
}

/// Whether what follows the last line's end is the beginning of a line, which is shorter than this.
#[must_use]
pub fn is_cut(rest: &[u8]) -> bool {
    const LONGEST_LINE: usize = 256;
    rest.len() < LONGEST_LINE && !rest.contains(&b'\n')
}

/// What another program did to a file of this one's, if that is seen in its bytes, and what to do.
fn changed(bytes: &[u8]) -> Option<(&'static str, &'static str)> {
    if bytes.starts_with(b"\xef\xbb\xbf") {
        return Some((
            "the file begins with a byte order mark (BOM), so another program saved it",
            "Take the one that the search wrote.",
        ));
    }
    let returns = bytes.iter().filter(|byte| **byte == b'\r').count();
    let ends = bytes.windows(2).filter(|pair| pair == b"\r\n").count();
    match (returns, ends) {
        (0, _) => None,
        (_, 0) => Some((
            "its lines end with CR alone, so another program saved it",
            "`tr '\\r' '\\n' < FILE > NEW` takes that back.",
        )),
        _ => Some((
            "its lines end with CR LF, so another program or a transfer as text changed it",
            "`tr -d '\\r' < FILE > NEW` takes that back.",
        )),
    }
}

/// The inputs beside a journal.
///
/// # Errors
///
/// Names the file and what is wrong with it.
pub fn read_inputs(journal: &Path) -> Result<StoredInputs, String> {
    let beside = inputs_path(journal);
    StoredInputs::load(journal).map_err(|error| {
        let changed = read_bytes(&beside).ok().and_then(|bytes| changed(&bytes));
        match changed {
            Some((why, remedy)) => format!("{}: {why}. {remedy}", beside.display()),
            None => format!("{}: {error}", beside.display()),
        }
    })
}

/// Bit by bit; any NaN is any other.
#[must_use]
pub fn is_same_seed(a: &Seed, b: &Seed) -> bool {
    let is_same = |(a, b): (f64, f64)| a.to_bits() == b.to_bits() || (a.is_nan() && b.is_nan());
    a.numbers().into_iter().zip(b.numbers()).all(is_same)
}

/// Before the names of notes that go into a table and a chart.
const ABOUT: &str = "about-";
/// How many of the seeds come from the decomposition; the file's follow them.
const DECOMPOSITION_SEEDS: &str = "decomposition-seeds";
/// A choice that the host needs when a search goes on.
const CHOICE: &str = "choice";

/// Adds what this program wants to find again beside a journal.
pub fn add_notes(inputs: &mut StoredInputs, about: &Record, sources: &[Source], choices: &Choices) {
    for (name, text) in &about.about {
        inputs.add_note(&format!("{ABOUT}{name}"), text);
    }
    let decomposition = sources.iter().filter(|source| **source == Source::Decomposition).count();
    inputs.add_note(DECOMPOSITION_SEEDS, &decomposition.to_string());
    choices.host_lines().iter().for_each(|line| inputs.add_note(CHOICE, line));
}

/// Where each decomposition seed comes from.
#[must_use]
pub fn sources(inputs: &StoredInputs) -> Vec<Source> {
    let all = inputs.decomposition.len();
    let decomposition = inputs.note(DECOMPOSITION_SEEDS).and_then(|count| count.parse().ok());
    let source = |i| {
        if i < decomposition.unwrap_or(all) { Source::Decomposition } else { Source::SeedFile }
    };
    (0..all).map(source).collect()
}

/// The choices that the search's host needs again.
///
/// # Errors
///
/// Says which of them this version doesn't know.
pub fn choices(inputs: &StoredInputs) -> Result<Choices, String> {
    let lines = inputs.notes.iter().filter(|note| note.0 == CHOICE).map(|note| note.1.as_str());
    Choices::parse(&lines.collect::<Vec<_>>().join("\n"))
        .map_err(|fault| format!("a `choice` of its notes can't be taken: {fault}"))
}

/// What the search was asked, as table and chart have it.
#[must_use]
pub fn about(inputs: &StoredInputs) -> Record {
    let mut record = Record::default();
    for (name, text) in &inputs.notes {
        if let Some(name) = name.strip_prefix(ABOUT) {
            record.add(name, text);
        }
    }
    if record.about("bound_rad").is_none() {
        record.add("bound_rad", &inputs.options.max_abs_tilt.to_string());
    }
    record
}

/// The record of a journal, as a chart is drawn from it.
#[must_use]
pub fn record(inputs: &StoredInputs, lines: &[Line]) -> Record {
    let mut record = about(inputs);
    record.tried = of_lines(lines, (&inputs.decomposition, &sources(inputs)));
    record
}

/// The same without the inputs: where a first-round seed comes from isn't known.
#[must_use]
pub fn record_of_lines(lines: &[Line]) -> Record {
    Record { tried: of_lines(lines, (&[], &[])), ..Record::default() }
}
