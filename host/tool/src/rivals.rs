//! Another valley: tried tilts that fit the views as well as the lean does, and lie where its ± excludes them.
//!
//! What squares are above the lean's counts here as an F: over two numbers and a pixel's variance. In the lean's valley the
//! squares of all dots grow as its covariance says. Where a tilt is scored by a sample of the dots, they grow by the sample's
//! share of that, and by chance: at the optimum the errors, times what they change by, add up to 0 over all dots, and over a
//! sample they don't. From one tilt to another that lies F away by all dots, chance has the deviation √(2·share·(1 − share)·F).

use crate::distribution::{f_above, student_below};
use crate::drive::{Finished, Tried, best};
use crate::lean::Lean;
use crate::residuals::Fit;
use crate::solve::Host;

/// Another tilt fits as well where its squares differ from the lean's by what chance alone does once in a hundred, and where
/// by the lean's own ± chance alone would put it there less than once in a million.
const ALIKE_LEVEL: f64 = 0.01;
const ELSEWHERE_LEVEL: f64 = 1e-6;

/// The lean's valley, as the scored dots show it.
struct Valley<'a> {
    lean: &'a Lean,
    freedom: f64,
    /// The scored dots' share of all.
    share: f64,
    /// The lean's mean square over the scored dots: the winner's there, as much smaller as it is over all dots.
    at_lean: f64,
    winner: &'a Tried,
}

/// The rivals, in the order in which they were tried.
#[must_use]
pub fn of<'a>(host: &Host, finished: &'a Finished, fit: &Fit, lean: &Lean) -> Vec<&'a Tried> {
    let valley = Valley::new(host, finished, fit, lean);
    let Some(valley) = valley.filter(|_| lean.has_noise()) else { return vec![] };
    finished.tried.iter().filter(|one| valley.is_rival(one).unwrap_or(false)).collect()
}

impl<'a> Valley<'a> {
    fn new(host: &Host, finished: &'a Finished, fit: &Fit, lean: &'a Lean) -> Option<Self> {
        let winner = best(&finished.tried)?;
        let rows =
            finished.tried.iter().filter_map(|one| one.dots.map(|dots| dots.counted)).max()?;
        let at_winner = fit.squares_of(&host.distinct_numbers());
        Some(Self {
            lean,
            freedom: lean.plain.freedom as f64,
            share: rows as f64 / fit.dots.len() as f64,
            at_lean: lean.plain.fitted.squares / at_winner * winner.scored?.rms?.powi(2),
            winner,
        })
    }

    /// How far a tilt's squares are above the lean's.
    fn above(&self, one: &Tried) -> Option<f64> {
        let rms = one.scored?.rms?;
        Some(0.5 * self.share * self.freedom * (rms * rms / self.at_lean - 1.0))
    }

    /// Nothing where the tilt wasn't scored.
    fn is_rival(&self, one: &Tried) -> Option<bool> {
        let above = self.above(one)?;
        let is_alike = f_above(above, 2.0, self.freedom) > ALIKE_LEVEL;
        Some(is_alike && self.is_elsewhere(one, above).unwrap_or(true))
    }

    /// Whether neither the lean's ± has a tilt nor its valley, as the sample shows it, squares so small there; nothing where
    /// the views determine no ±.
    fn is_elsewhere(&self, one: &Tried, above: f64) -> Option<bool> {
        let [here, there] =
            [self.winner.seed.sensor, one.seed.sensor].map(|at| [at.tilt_x, at.tilt_y]);
        let of_winner = self.lean.plain.distance(self.lean.tilts(), here)?;
        let of_one = self.lean.plain.distance(self.lean.tilts(), there)?;
        let between = self.lean.plain.distance(here, there)?;
        let is_excluded = f_above(self.share * of_one, 2.0, self.freedom) < ELSEWHERE_LEVEL;
        let expected = self.share * (of_one - of_winner);
        let chance = (2.0 * self.share * (1.0 - self.share) * between).sqrt();
        let below = (expected - (above - self.above(self.winner)?)) / chance;
        Some(is_excluded && 1.0 - student_below(below, self.freedom) < ELSEWHERE_LEVEL)
    }
}
