//! Does a view alone disagree with the others? The lean without each view in turn, and an F test of what the view adds.

use crate::distribution::f_above;
use crate::lean::{ByModel, Lean, Optimum, by_model, by_plain};
use crate::least_squares::{Equations, FOR_THE_LEAN, Problem};
use crate::solve::Host;

/// The level of the test, of all views together: chance alone names one once in five hundred sets of views.
pub const LEVEL: f64 = 0.002;
/// With fewer views the rest determines hardly anything.
const FEWEST: usize = 4;

/// The lean without a view.
#[derive(Clone, Copy, Debug, PartialEq)]
pub struct Without {
    /// The view, counted from 0.
    pub view: usize,
    /// The tilts without it, in radians.
    pub tilts: [f64; 2],
    /// How likely chance alone adds as much to the squares as the view does.
    pub chance: f64,
}

/// The leans without each view in turn; none where fewer than four views differ. The chances are those of the model that
/// explains the views.
#[must_use]
pub fn without_each(host: &Host, lean: &Lean) -> Vec<Without> {
    let numbers = host.distinct_numbers();
    if numbers.len() < FEWEST {
        return vec![];
    }
    let tilts = by_plain(host, lean, &LeavingOut);
    let chances = lean.other_lens().map(|_| by_model(host, lean, &LeavingOut));
    let one = |(i, &view): (usize, &usize)| {
        let (tilts, chance) = tilts[i]?;
        let chance = chances.as_ref().map_or(Some(chance), |all| Some(all[i]?.1))?;
        Some(Without { view, tilts, chance })
    };
    numbers.iter().enumerate().filter_map(one).collect()
}

/// For each view the tilts without it, and the chance of what it adds to the squares.
struct LeavingOut;

type LeftOut = Option<([f64; 2], f64)>;

impl ByModel for LeavingOut {
    type Out = Vec<LeftOut>;

    /// By one step of Gauss and Newton from the optimum, which is as good as exact for views that agree; the view with the
    /// least chance is left out in earnest.
    fn run<const N: usize>(
        &self,
        problem: &Problem,
        free: [usize; N],
        at: &Optimum,
    ) -> Vec<LeftOut> {
        let Some((parts, prior)) = problem.equations(free, &at.fitted) else {
            return vec![None; problem.views.len()];
        };
        let all = parts.iter().fold(prior, |sum, part| sum.with(1.0, part));
        let one = |(part, view): (&Equations<N>, _)| {
            let (step, squares) = all.with(-1.0, part).solution()?;
            let [x, y] = at.tilts();
            Some(([x + step[2], y + step[3]], chance(at, view, squares)?))
        };
        let dots = problem.views.iter().map(|view| view.dots());
        let mut found: Vec<LeftOut> = parts.iter().zip(dots).map(one).collect();
        let chances = found.iter().enumerate().filter_map(|(i, one)| Some((i, one.as_ref()?.1)));
        if let Some((worst, _)) = chances.min_by(|a, b| a.1.total_cmp(&b.1)) {
            found[worst] = in_earnest(problem, free, at, worst).or(found[worst]);
        }
        found
    }
}

fn in_earnest<const N: usize>(
    problem: &Problem,
    free: [usize; N],
    at: &Optimum,
    view: usize,
) -> LeftOut {
    let (mut rest, mut start) = (problem.views.to_vec(), at.fitted.clone());
    let dots = rest.remove(view).dots();
    start.poses.remove(view);
    let found = Problem { views: &rest, ..*problem }.optimum(free, start, FOR_THE_LEAN)?;
    Some(([found.shared[2], found.shared[3]], chance(at, dots, found.squares)?))
}

/// The chance of squares that are as much larger with a view of so many dots than without it.
fn chance(at: &Optimum, dots: usize, squares: f64) -> Option<f64> {
    let added = (2 * dots).checked_sub(6).filter(|added| *added > 0)?;
    let left = at.freedom.checked_sub(added).filter(|left| *left > 0)?;
    let (added, left) = (added as f64, left as f64);
    let f = (at.fitted.squares - squares) / added / (squares / left);
    Some(if at.has_noise() { f_above(f, added, left) } else { 1.0 })
}

/// The view that alone disagrees: that with the least chance, if it is below the level.
#[must_use]
pub fn disagrees(without: &[Without]) -> Option<&Without> {
    let least = without.iter().min_by(|a, b| a.chance.total_cmp(&b.chance))?;
    (least.chance * (without.len() as f64) < LEVEL).then_some(least)
}

/// How far the tilts may lie off by what the views differ in, whatever the dots' errors are: two standard deviations by the
/// jackknife, in radians.
#[must_use]
pub fn by_views(without: &[Without]) -> Option<[f64; 2]> {
    let count = without.len() as f64;
    (without.len() > 1).then(|| {
        [0, 1].map(|i| {
            let mean = without.iter().map(|one| one.tilts[i]).sum::<f64>() / count;
            let squares: f64 = without.iter().map(|one| (one.tilts[i] - mean).powi(2)).sum();
            2.0 * (squares * (count - 1.0) / count).sqrt()
        })
    })
}

#[cfg(test)]
mod tests {
    use super::*;
    use crate::lean::Lens;
    use crate::synthetic::BUILT_IN;
    use crate::views::Plate;
    use jinnychair::Seed;

    fn host_and_lean(plate: &Plate) -> (Host, Lean) {
        let host = Host::new(plate.clone()).unwrap();
        let seed = Seed { reference_k: host.base(), sensor: BUILT_IN.sensor };
        let lean = Lean::new(&host, &seed, Lens::Open).unwrap();
        (host, lean)
    }

    fn without(plate: &Plate) -> Vec<Without> {
        let (host, lean) = host_and_lean(plate);
        without_each(&host, &lean)
    }

    #[test]
    fn a_view_that_is_shifted_disagrees_and_others_do_not() {
        let mut plate = BUILT_IN.plate();
        let clean = without(&plate);
        assert_eq!((clean.len(), disagrees(&clean)), (14, None));
        let [x, y] = by_views(&clean).unwrap().map(f64::to_degrees);
        assert!((0.003..0.04).contains(&x) && (0.003..0.04).contains(&y), "{x} {y}");
        plate.views[3].pixels.iter_mut().for_each(|pixel| pixel.x *= 1.01);
        assert_eq!(disagrees(&without(&plate)).map(|one| one.view), Some(3));
    }

    /// The step from the lean gives the tilts of a solution without the view.
    #[test]
    fn the_step_is_as_good_as_leaving_the_view_out() {
        let mut plate = BUILT_IN.plate();
        let told = without(&plate);
        plate.views.remove(5);
        let (_, rest) = host_and_lean(&plate);
        for i in 0..2 {
            let off = told[5].tilts[i] - rest.tilts()[i];
            assert!(off.abs() < 0.02 * rest.plain.deviations().unwrap()[i], "{off}");
        }
    }
}
