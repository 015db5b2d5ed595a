//! What is counted of measured sets.

use crate::answer::Answer;
use crate::measured::{Measured, Yardstick};
use crate::tally::{Share, quantile, rms, two_deviations};
use std::collections::BTreeMap;

/// What is counted of the sets of a cell.
#[derive(Clone, Debug)]
pub struct Summary {
    /// Ended with 0.
    pub good: Share,
    /// Tilts within the headline's bounds, of the runs that ended with 0.
    pub covered: Share,
    /// The same of all runs with an answer.
    pub all_covered: Share,
    /// Tilts within the winner's own bounds, of all runs with an answer.
    pub winner_covered: Share,
    /// Runs that end with 0 and a tilt beyond the headline's bounds.
    pub silent: Share,
    /// The headline's bounds over Student's two deviations of the exact covariance, with a lens that is free: median, and
    /// what 95 of 100 are below.
    pub width: [f64; 2],
    /// The same over that without a lens.
    pub plain_width: [f64; 2],
    /// RMS of the headline's errors, and of the winner's, over those of the independent fit.
    pub errors: [f64; 2],
    /// RMS of the residuals with the headline's tilts over those of the independent fit.
    pub residuals: f64,
    /// How far the headline lies off the independent optimum at most, in its deviations.
    pub farthest: f64,
    /// Where a lens is among the reasons.
    pub lens: Share,
    /// Runs without an answer.
    pub failed: usize,
    /// Sets for which the independent fit doesn't end.
    pub unfitted: usize,
    /// Typed tilts that were skipped.
    pub skipped: Share,
    /// The first words of the reasons, and how many runs have them.
    pub reasons: BTreeMap<String, usize>,
}

impl Summary {
    /// Counts.
    #[must_use]
    pub fn new(sets: &[Measured]) -> Self {
        let answers = || sets.iter().filter_map(|one| Some((one, one.answer.as_ref().ok()?)));
        let good = || sets.iter().filter(|one| one.is_good());
        let covered = |covered: Vec<[bool; 2]>| Share::of(covered.into_iter().flatten());
        let typed = answers().map(|(_, answer)| answer.typed);
        let [typed, skipped] =
            typed.fold([0, 0], |sum, typed| [sum[0] + typed[0], sum[1] + typed[1]]);
        Self {
            good: Share::of(sets.iter().map(Measured::is_good)),
            covered: covered(good().filter_map(Measured::lean_covered).collect()),
            all_covered: covered(sets.iter().filter_map(Measured::lean_covered).collect()),
            winner_covered: covered(sets.iter().filter_map(Measured::winner_covered).collect()),
            silent: Share::of(sets.iter().map(Measured::is_silently_beyond)),
            width: widths(sets, |one| one.bent),
            plain_width: widths(sets, |one| one.plain),
            errors: [error_ratio(sets, |a| a.lean), error_ratio(sets, |a| a.winner)],
            residuals: residual_ratio(sets),
            farthest: farthest(sets),
            lens: Share::of(answers().map(|(_, answer)| answer.blames_the_lens())),
            failed: sets.iter().filter(|one| one.answer.is_err()).count(),
            unfitted: answers().filter(|(one, _)| one.at_lean.is_none()).count(),
            skipped: Share { count: skipped, of: typed },
            reasons: reasons(sets),
        }
    }
}

/// The headline's bounds over Student's two deviations of an exact covariance: the median, and what 95 of 100 are below.
fn widths(sets: &[Measured], exact: fn(&Measured) -> Option<Yardstick>) -> [f64; 2] {
    let both = sets.iter().filter_map(|one| Some((one.answer.as_ref().ok()?, exact(one)?)));
    let widths = both.flat_map(|(answer, exact)| {
        let factor = two_deviations(exact.freedom);
        [0, 1].map(|i| answer.lean_bounds[i] / (factor * exact.deviations[i]))
    });
    let widths: Vec<f64> = widths.collect();
    [quantile(&widths, 0.5), quantile(&widths, 0.95)]
}

/// RMS of errors over those of the independent fit, each in its set's deviations, so that no set outweighs the others.
fn error_ratio(sets: &[Measured], shown: fn(&Answer) -> [f64; 2]) -> f64 {
    let both = sets.iter().filter_map(|one| {
        let (answer, exact) = (one.answer.as_ref().ok()?, one.plain?);
        let errors =
            |tilts: [f64; 2]| [0, 1].map(|i| (tilts[i] - one.truth[i]) / exact.deviations[i]);
        Some([errors(shown(answer)), errors(exact.tilts)])
    });
    let both: Vec<_> = both.collect();
    let side = |i: usize| rms(both.iter().flat_map(|both| both[i]));
    side(0) / side(1)
}

/// RMS of residuals over those of the independent fit.
fn residual_ratio(sets: &[Measured]) -> f64 {
    rms(sets.iter().filter_map(|one| Some((one.at_lean? / one.plain?.squares).sqrt())))
}

/// How far the headline lies off the independent optimum at most, in its deviations.
fn farthest(sets: &[Measured]) -> f64 {
    let off = sets.iter().filter_map(|one| {
        let (answer, exact) = (one.answer.as_ref().ok()?, one.plain?);
        let off = [0, 1].map(|i| (answer.lean[i] - exact.tilts[i]).abs() / exact.deviations[i]);
        Some(off[0].max(off[1]))
    });
    off.fold(0.0, f64::max)
}

/// The first words of each reason, without numbers.
fn reasons(sets: &[Measured]) -> BTreeMap<String, usize> {
    let mut counts = BTreeMap::new();
    for one in sets {
        let told = match &one.answer {
            Ok(answer) => answer.reasons.clone(),
            Err(fault) => vec![format!("failed: {fault}")],
        };
        for reason in told {
            let words = reason.split_whitespace();
            let words = words.filter(|word| !word.contains(|c: char| c.is_ascii_digit())).take(6);
            *counts.entry(words.collect::<Vec<_>>().join(" ")).or_insert(0) += 1;
        }
    }
    counts
}
