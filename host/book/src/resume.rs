//! Going on from a journal (docs/SPECIFICATION.md, 8.9).

use crate::{Book, Inputs, Reading, read_line};

/// What ended the kept lines.
#[derive(Clone, Copy, Debug, PartialEq, Eq)]
pub enum EndedBy {
    /// The whole journal is kept.
    Nothing,
    /// The rest has no newline.
    MissingNewline,
    /// 29 or 30.
    Number(u8),
}

/// A run that goes on, with no seed waiting, and what it goes on from.
#[derive(Clone, Debug)]
pub struct Resumed {
    /// The run's book, as the kept lines leave it.
    pub book: Book,
    /// How many lines are kept.
    pub lines: usize,
    /// How many bytes these have.
    pub kept: usize,
    /// How many bytes follow them.
    pub dropped: usize,
    /// What ended them.
    pub ended_by: EndedBy,
}

/// Keeps the longest front of whole lines that a replay takes.
///
/// # Errors
///
/// Start's own number; then nothing is written to the lent list.
pub fn resume(inputs: Inputs, journal: &[u8], lent: &mut [f64]) -> Result<Resumed, u8> {
    let mut book = Book::start(inputs, lent)?;
    let (mut lines, mut kept) = (0, 0);
    let ended_by = loop {
        let rest = &journal[kept..];
        if !rest.is_empty() && !rest.contains(&b'\n') {
            break EndedBy::MissingNewline;
        }
        match read_line(journal, kept) {
            Reading::End => break EndedBy::Nothing,
            Reading::Refused(_) => break EndedBy::Number(29),
            Reading::Line(line, next) => {
                if !book.take(line, lent) {
                    break EndedBy::Number(30);
                }
                (lines, kept) = (lines + 1, next);
            }
        }
    };
    Ok(Resumed { book, lines, kept, dropped: journal[kept..].len(), ended_by })
}
