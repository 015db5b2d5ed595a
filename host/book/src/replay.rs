//! Running a journal again (docs/SPECIFICATION.md, 8.6).

use crate::{Book, Entry, Inputs, Outcome, Reading, Seed, read_line};

/// The reply of a replay.
#[derive(Clone, Copy, Debug, PartialEq)]
pub enum Replayed {
    /// The winner's number and score.
    Winner(usize, f64),
    /// The lines ran out; this seed comes next.
    Unfinished(Seed),
    /// Start's own number, or 11.
    Refused(u8),
    /// 29 or 30, and the line's number, from 1.
    RefusedLine(u8, usize),
}

/// Any NaN is any other; else bit by bit.
fn same(a: f64, b: f64) -> bool {
    (a.is_nan() && b.is_nan()) || a.to_bits() == b.to_bits()
}

impl Book {
    /// Whether a line can be the next candidate's: its number, its round and its seed, and under S its camera, mean and score.
    fn is_next(&self, line: &Entry, lent: &[f64]) -> bool {
        let Some(seed) = self.next_seed(lent) else { return false };
        let mut pairs = seed.numbers().into_iter().zip(line.seed.numbers());
        (line.number, line.round) == (self.entries().len(), self.round())
            && pairs.all(|(handed, recorded)| same(handed, recorded))
            && self.can_be_recorded(line)
    }

    fn can_be_recorded(&self, line: &Entry) -> bool {
        let Outcome::Scored(scored) = line.outcome else { return true };
        let (camera, mean) = (scored.camera, scored.mean);
        camera.is_camera()
            && camera.tangential.iter().all(|p| p.abs() <= 0.05)
            && mean.is_finite()
            && mean >= 0.0
            && same(camera.score(mean, line.seed.tilts, self.inputs().centre), scored.score)
    }

    /// Takes a line for the next candidate's answer, if it can be.
    pub(crate) fn take(&mut self, line: Entry, lent: &mut [f64]) -> bool {
        let is_next = self.is_next(&line, lent);
        if is_next {
            self.enter(line, lent);
        }
        is_next
    }
}

/// Walks the run from Start's inputs, with a journal's lines for the host's answers.
pub fn replay(inputs: Inputs, journal: &[u8], lent: &mut [f64]) -> Replayed {
    let mut book = match Book::start(inputs, lent) {
        Ok(book) => book,
        Err(number) => return Replayed::Refused(number),
    };
    let mut at = 0;
    for number in 1.. {
        match read_line(journal, at) {
            Reading::End => break,
            Reading::Refused(_) => return Replayed::RefusedLine(29, number),
            Reading::Line(line, next) => {
                if !book.take(line, lent) {
                    return Replayed::RefusedLine(30, number);
                }
                at = next;
            }
        }
    }
    if let Some(seed) = book.next_seed(lent) {
        return Replayed::Unfinished(seed);
    }
    let winner = book.run_best();
    winner.map_or(Replayed::Refused(11), |best| Replayed::Winner(best.number, best.scored.score))
}
