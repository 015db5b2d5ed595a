//! How far the lean and the winner's tilts are left open: by noise, by a lens that nobody stated, by an error of the stated
//! centre, and the winner by its distance from the lean, which has the search's steps and its penalty in it.

use crate::distribution::COVERED;
use crate::lean::{Lean, OFF_LEVEL};
use crate::plan::Plan;
use crate::views::MOST_SCORED;
use jinnychair::{FxFyCxCy, ScheimpflugParams, Winner};

/// What is left open of each tilt (x, y), in radians.
#[derive(Clone, Copy, Debug, PartialEq)]
pub struct Open {
    /// The lean; nothing without views, or where they determine none.
    pub lean: Option<[f64; 2]>,
    /// Of the lean by noise in the pixels, if the lens is as stated; nothing where the views don't determine it.
    pub noise: Option<[f64; 2]>,
    /// What a lens adds of which nothing is said, or less than that it is exact; nothing where it is exact.
    pub lens: Option<[f64; 2]>,
    /// The winner's tilts.
    pub won: [f64; 2],
    /// Of the winner by noise, the lens, and its distance from the lean.
    pub winner: Option<[f64; 2]>,
    /// How far from the lean the steps, the penalty and noise explain that the winner lies.
    pub explained: Option<[f64; 2]>,
    /// The search's last steps.
    pub steps: [f64; 2],
    /// How tilt x and tilt y move with the held centre's x and y, in radians a pixel.
    pub by_centre: [[f64; 2]; 2],
    /// How many pixels the stated centre may be off, if that is known.
    pub centre_within: Option<f64>,
    /// Where tilt y is held at 0, what the views say of it.
    pub held: Option<Held>,
}

/// What the views say of a tilt y that is held at 0.
#[derive(Clone, Copy, Debug, PartialEq)]
pub struct Held {
    /// The tilt y at which the errors would be smallest, and what noise and the lens leave open of it at the level of a test, in
    /// radians; nothing where the views don't determine it.
    pub wanted: Option<[f64; 2]>,
}

impl Open {
    /// What is left open of a winner and of the lean beside it.
    ///
    /// A tilt y that is held at 0 is free in the lean: what tilt x lies off because of it is in the bound.
    #[must_use]
    pub fn new(winner: &Winner, lean: &Lean, plan: &Plan, centre_within: Option<f64>) -> Self {
        let won = [winner.sensor.tilt_x, winner.sensor.tilt_y];
        let is_held = plan.axes[1].is_held;
        let of_x = |[x, y]: [f64; 2]| if is_held { [x, 0.0] } else { [x, y] };
        let all = lean.bounds(lean.tilts());
        let noise = lean.noise_share();
        let more =
            |(all, noise): ([f64; 2], [f64; 2])| [0, 1].map(|i| (all[i] - noise[i]).max(0.0));
        let wanted = lean.bounds_at(lean.tilts(), 1.0 - OFF_LEVEL);
        let held = Held { wanted: wanted.map(|bound| [lean.tilts()[1], bound[1]]) };
        Self {
            lean: Some(lean.tilts()),
            noise: noise.map(of_x),
            lens: all.zip(noise).map(more).map(of_x).filter(|_| lean.open().is_some()),
            won,
            winner: lean.bounds(won).map(of_x),
            explained: explained(lean, winner, plan).map(of_x),
            steps: plan.steps(),
            by_centre: lean.plain.by_centre,
            centre_within,
            held: is_held.then_some(held),
        }
    }

    /// The same as far as it is known without the views: by the steps, and by the centre.
    #[must_use]
    pub fn without_views(winner: &Winner, plan: &Plan, centre_within: Option<f64>) -> Self {
        Self {
            lean: None,
            noise: None,
            lens: None,
            won: [winner.sensor.tilt_x, winner.sensor.tilt_y],
            winner: None,
            explained: None,
            steps: plan.steps(),
            by_centre: by_centre(&winner.camera.k, winner.sensor),
            centre_within,
            held: plan.axes[1].is_held.then_some(Held { wanted: None }),
        }
    }

    /// What the centre's tolerance leaves open of each tilt, if it is known.
    #[must_use]
    pub fn by_tolerance(&self) -> Option<[f64; 2]> {
        let within = self.centre_within?;
        let [x, y] = self.by_centre.map(|[by_x, by_y]| within * by_x.hypot(by_y));
        Some([x, if self.held.is_some() { 0.0 } else { y }])
    }

    /// How far the truth may lie from the lean, as far as it is known: by noise, the lens and the centre. Nothing where the
    /// views don't determine it.
    #[must_use]
    pub fn lean_total(&self) -> Option<[f64; 2]> {
        let parts =
            [self.noise?, self.lens.unwrap_or_default(), self.by_tolerance().unwrap_or_default()];
        Some([0, 1].map(|i| parts.iter().map(|part| part[i]).sum()))
    }

    /// How far the truth may lie from the winner, as far as it is known; without views, by the steps and the centre.
    #[must_use]
    pub fn winner_total(&self) -> [f64; 2] {
        let centre = self.by_tolerance().unwrap_or_default();
        let other = self.winner.unwrap_or(self.steps);
        let [x, y] = [0, 1].map(|i| other[i] + centre[i]);
        [x, if self.held.is_some() { 0.0 } else { y }]
    }

    /// How far the winner lies from the lean.
    #[must_use]
    pub fn off(&self) -> Option<[f64; 2]> {
        let [x, y] = self.lean?;
        let off_y = if self.held.is_some() { 0.0 } else { self.won[1] - y };
        Some([self.won[0] - x, off_y])
    }

    /// The tilts that the headline names, with their bounds: the lean's, or where there is none the winner's.
    #[must_use]
    pub fn headline(&self) -> ([f64; 2], Option<[f64; 2]>) {
        match self.lean {
            Some(lean) => (lean, self.lean_total()),
            None => (self.won, Some(self.winner_total())),
        }
    }
}

/// How far from the lean a winner may lie: the penalty pulls it, its steps end there, and its score isn't the squares, so that
/// noise moves it otherwise by at most what it moves the lean.
fn explained(lean: &Lean, winner: &Winner, plan: &Plan) -> Option<[f64; 2]> {
    let is_held = plan.axes[1].is_held;
    let pulled = lean.lowest_score(winner.mean_reproj_error, is_held)?;
    let steps = lean.by_steps(plan.steps(), is_held)?;
    let noise = lean.plain.bounds(lean.tilts(), COVERED)?;
    // It is scored by some of the dots, where there are many.
    let fewer = (lean.dots as f64 / MOST_SCORED as f64).max(1.0).sqrt();
    Some([0, 1].map(|i| (pulled[i] - lean.tilts()[i]).abs() + steps[i] + fewer * noise[i]))
}

/// A tilted sensor is one without tilt whose centre is cx + fx·sin(tilt y)·cos(tilt x), cy − fy·sin(tilt x): where
/// that is what is seen, a stated centre that is off moves the tilts.
fn by_centre(k: &FxFyCxCy, sensor: ScheimpflugParams) -> [[f64; 2]; 2] {
    let [cos_x, cos_y] = [sensor.tilt_x, sensor.tilt_y].map(f64::cos);
    [[0.0, 1.0 / (k.fy * cos_x)], [-1.0 / (k.fx * cos_x * cos_y), 0.0]]
}
