//! Winners of stretches of a run.

use crate::record::{self, Best};
use crate::{BrownConrady5, FxFyCxCy, PinholeCamera, ScheimpflugParams, Winner};

/// What a record has in place of a winner.
const NOBODY: Winner = Winner {
    number: 0,
    camera: PinholeCamera {
        k: FxFyCxCy { fx: 0.0, fy: 0.0, cx: 0.0, cy: 0.0 },
        dist: BrownConrady5 { k1: 0.0, k2: 0.0, k3: 0.0, p1: 0.0, p2: 0.0 },
    },
    sensor: ScheimpflugParams { tilt_x: 0.0, tilt_y: 0.0 },
    mean_reproj_error: 0.0,
    score: 0.0,
};

impl From<Option<Winner>> for Best {
    fn from(winner: Option<Winner>) -> Self {
        Self { found: winner.is_some().into(), candidate: winner.unwrap_or(NOBODY) }
    }
}

impl From<Best> for Option<Winner> {
    fn from(best: Best) -> Self {
        (best.found != 0).then_some(best.candidate)
    }
}

/// The winner of two stretches of a run that follow each other, from the winner of each: the one with the lower score, the first
/// where they are equal. A stretch without a scored candidate has none.
///
/// Taken over all stretches in their order this is the run's winner, however the run was cut and however stretches are grouped.
#[must_use]
pub fn winner(first: Option<Winner>, second: Option<Winner>) -> Option<Winner> {
    record::winner(first.into(), second.into()).into()
}
