//! Winners of stretches (docs/SPECIFICATION.md, 10.1).

use crate::pages::best;
use crate::{Entry, Winner};

/// The winner of answered candidates that follow each other, if any of them is scored.
pub fn stretch_winner(entries: &[Entry]) -> Option<Winner> {
    best(entries.iter())
}

/// The winner of winners in their order: lower replaces, equal doesn't. A score that isn't a number, which no winner of a run has,
/// never replaces, and is replaced by any number.
pub fn winner_of(winners: &[Option<Winner>]) -> Option<Winner> {
    let beats = |new: f64, old: f64| new < old || (old.is_nan() && !new.is_nan());
    let all = winners.iter().flatten().copied();
    all.reduce(|old, new| if beats(new.scored.score, old.scored.score) { new } else { old })
}
