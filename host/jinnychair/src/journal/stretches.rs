//! Winners of a journal's stretches and rounds.

use super::line::{Line, Recorded};
use crate::{Winner, winner};
use std::borrow::Borrow;

impl Line {
    /// The candidate as a winner, if it was scored.
    #[must_use]
    pub fn winner(&self) -> Option<Winner> {
        let Recorded::Scored(fields) = self.outcome else { return None };
        Some(Winner {
            number: self.number,
            camera: fields.camera(),
            sensor: self.seed.sensor,
            mean_reproj_error: fields.mean_reproj_error,
            score: fields.score,
        })
    }
}

/// The winner of lines that follow each other: the earliest with the lowest score; nothing where none was scored. Of a whole journal
/// it is the run's winner. [`crate::winner`] gives that of two stretches.
#[must_use]
pub fn stretch_winner(lines: impl IntoIterator<Item = impl Borrow<Line>>) -> Option<Winner> {
    lines.into_iter().fold(None, |best, line| winner(best, line.borrow().winner()))
}

/// The winner of each round of a journal, by the round's number; nothing for a round in which no candidate was scored.
#[must_use]
pub fn round_winners(lines: impl IntoIterator<Item = impl Borrow<Line>>) -> Vec<Option<Winner>> {
    let mut winners = vec![];
    for line in lines {
        let line = line.borrow();
        if winners.len() <= line.round {
            winners.resize(line.round + 1, None);
        }
        winners[line.round] = winner(winners[line.round], line.winner());
    }
    winners
}
