//! Does one camera explain the views at all? An F test of its squares beside those of a map of each view's own, from the plate
//! to the pixels, which any camera without distortion has.

use crate::distribution::f_above;
use crate::homography::least_squares_of_map;
use crate::lean::Lean;
use crate::solve::{Host, Model};

/// The level: chance alone passes once in five hundred sets of views.
pub const LEVEL: f64 = 0.002;

/// The camera's errors, those of the views' own maps, both as a pixel's standard deviation, and how likely chance alone makes
/// them differ so much.
#[derive(Clone, Copy, Debug, PartialEq)]
pub struct Misfit {
    /// By the camera of the lean, in pixels.
    pub here: f64,
    /// By the maps, in pixels.
    pub own: f64,
    /// The chance.
    pub chance: f64,
}

/// Nothing where no dot is left over, or where a map isn't more than a camera, which has a lens.
#[must_use]
pub fn misfit(host: &Host, lean: &Lean) -> Option<Misfit> {
    if host.model() != Model::default() {
        return None;
    }
    let numbers = host.distinct_numbers();
    let squares = |&view: &usize| {
        let (shown, map) = (&host.plate().views[view], &host.maps()[view]);
        least_squares_of_map(&host.centred(view).board(), &shown.pixels, map)
    };
    let squares: f64 = numbers.iter().map(squares).sum();
    let all: usize = numbers.iter().map(|view| 2 * host.plate().views[*view].dots()).sum();
    let left = all.checked_sub(8 * numbers.len()).filter(|left| *left > 0)?;
    let more = lean.plain.freedom.checked_sub(left).filter(|more| *more > 0)?;
    let (more, left, own) = (more as f64, left as f64, squares / left as f64);
    let f = (lean.plain.fitted.squares - squares) / more / own;
    let chance = if lean.has_noise() { f_above(f, more, left) } else { 1.0 };
    Some(Misfit { here: lean.plain.variance.sqrt(), own: own.sqrt(), chance })
}
