//! A set of views that was searched by the program and fitted by the yardstick.

use crate::answer::{Answer, answer};
use crate::draw::Drawn;
use crate::reference::{BENT, Fit, HELD, PLAIN, Problem};
use crate::tally::two_deviations;
use tool::views::Plate;

/// What rounding may do to a tilt, in radians: a thousandth of the last digit that is shown.
const ROUNDING: f64 = 1e-9;

/// What the independent fit says of a set.
#[derive(Clone, Copy, Debug, PartialEq)]
pub struct Yardstick {
    /// The tilts.
    pub tilts: [f64; 2],
    /// Their standard deviations.
    pub deviations: [f64; 2],
    /// Degrees of freedom.
    pub freedom: usize,
    /// The sum of squares.
    pub squares: f64,
}

/// A set that was searched and fitted.
#[derive(Clone, Debug)]
pub struct Measured {
    /// The set's number in its cell.
    pub set: usize,
    /// How many views it has.
    pub views: usize,
    /// The true tilts.
    pub truth: [f64; 2],
    /// What the program answered, or what it said when it failed.
    pub answer: Result<Answer, String>,
    /// The independent fit without a lens.
    pub plain: Option<Yardstick>,
    /// That with k1, k2, p1 and p2.
    pub bent: Option<Yardstick>,
    /// The least sum of squares with the tilts that the program shows, or what it says itself, whichever is more; nothing where
    /// the independent fit doesn't end.
    pub at_lean: Option<f64>,
    /// The views.
    pub plate: Plate,
}

fn yardstick(problem: &Problem, free: &[usize], start: Fit) -> Option<(Yardstick, Fit)> {
    let fit = problem.optimum(free, start)?;
    let deviations = problem.deviations(free, &fit)?;
    let (tilts, deviations) = ([fit.shared[2], fit.shared[3]], [deviations[2], deviations[3]]);
    let freedom = problem.freedom(free);
    Some((Yardstick { tilts, deviations, freedom, squares: fit.squares }, fit))
}

/// Whether each tilt of the independent fit without a lens lies within its two deviations by Student's distribution; nothing
/// where the fit doesn't end.
#[must_use]
pub fn covered_by_two_deviations(drawn: &Drawn) -> Option<[bool; 2]> {
    let problem = Problem::new(&drawn.plate);
    let start = problem.start(drawn.shared, &drawn.poses);
    let (found, _) = yardstick(&problem, PLAIN, start)?;
    let factor = two_deviations(found.freedom);
    let off = |i: usize| (found.tilts[i] - drawn.shared[2 + i]).abs();
    Some([0, 1].map(|i| off(i) <= factor * found.deviations[i]))
}

impl Measured {
    /// Searches and fits a set.
    #[must_use]
    pub fn new(set: usize, drawn: Drawn, options: &str) -> Self {
        let Drawn { plate, shared, poses } = drawn;
        let answer = answer(plate.clone(), options);
        let problem = Problem::new(&plate);
        let mut straight = shared;
        straight[4..].fill(0.0);
        let plain = yardstick(&problem, PLAIN, problem.start(straight, &poses));
        let bent = yardstick(&problem, BENT, problem.start(shared, &poses));
        let with_tilts = |tilts: [f64; 2]| {
            let start = problem.with_tilts(&plain.as_ref()?.1, tilts);
            problem.optimum(HELD, start).map(|fit| fit.squares)
        };
        let at_lean = answer
            .as_ref()
            .ok()
            .and_then(|answer| with_tilts(answer.lean).map(|squares| squares.max(answer.squares)));
        let truth = [shared[2], shared[3]];
        let (plain, bent) = (plain.map(|(it, _)| it), bent.map(|(it, _)| it));
        let views = plate.views.len();
        Self { set, views, truth, answer, plain, bent, at_lean, plate }
    }

    /// Whether the program ended with 0.
    #[must_use]
    pub fn is_good(&self) -> bool {
        self.answer.as_ref().is_ok_and(Answer::is_good)
    }

    /// Whether each tilt lies within the bounds that are shown for it.
    fn covered(&self, shown: fn(&Answer) -> [[f64; 2]; 2]) -> Option<[bool; 2]> {
        let [tilts, bounds] = shown(self.answer.as_ref().ok()?);
        Some([0, 1].map(|i| (tilts[i] - self.truth[i]).abs() <= bounds[i] + ROUNDING))
    }

    /// Whether each tilt lies within the headline's bounds.
    #[must_use]
    pub fn lean_covered(&self) -> Option<[bool; 2]> {
        self.covered(|answer| [answer.lean, answer.lean_bounds])
    }

    /// Whether each tilt lies within the winner's own bounds.
    #[must_use]
    pub fn winner_covered(&self) -> Option<[bool; 2]> {
        self.covered(|answer| [answer.winner, answer.winner_bounds])
    }

    /// Whether the program ended with 0 and a tilt lies beyond the headline's bounds.
    #[must_use]
    pub fn is_silently_beyond(&self) -> bool {
        self.is_good() && self.lean_covered() != Some([true; 2])
    }

    /// Whether the headline's tilts aren't those of the least squares: the residuals are larger by more than a thousandth.
    #[must_use]
    pub fn is_off(&self) -> bool {
        let ratio = self.at_lean.zip(self.plain).map(|(here, exact)| here / exact.squares);
        ratio.is_some_and(|ratio| ratio > 1.001 * 1.001)
    }

    /// The views with what is true of them, as a file.
    #[must_use]
    pub fn file(&self) -> String {
        let [x, y] = self.truth.map(f64::to_degrees);
        let told = match &self.answer {
            Err(fault) => format!("# failed: {fault}\n"),
            Ok(answer) => {
                let degrees = |[x, y]: [f64; 2]| {
                    let [x, y] = [x, y].map(f64::to_degrees);
                    format!("{x:.5}° {y:.5}°")
                };
                let mut text = format!(
                    "# lean {} ± {}, winner {} ± {}\n",
                    degrees(answer.lean),
                    degrees(answer.lean_bounds),
                    degrees(answer.winner),
                    degrees(answer.winner_bounds)
                );
                answer.reasons.iter().for_each(|reason| text += &format!("# against: {reason}\n"));
                text
            }
        };
        format!("{}# true tilts {x:.5}° {y:.5}°\n{told}", self.plate.text())
    }
}
