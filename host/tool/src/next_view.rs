//! Which turn of the plate would shrink the ± most, by what one more view would say.

use crate::lean::{Lean, prior, total};
use crate::least_squares::{ALL, Equations, Fitted, Prior, Problem, TILTED};
use crate::pose::Pose;
use crate::solve::Host;

/// How far the plate would be turned.
const TURN: f64 = std::f64::consts::PI / 6.0;
/// Which edge or corner would go away from the camera, as turns about the picture's x and y axes.
const TURNS: [(&str, [f64; 2]); 8] = [
    ("lower edge", [1.0, 0.0]),
    ("upper edge", [-1.0, 0.0]),
    ("right edge", [0.0, -1.0]),
    ("left edge", [0.0, 1.0]),
    ("lower right corner", [0.7, -0.7]),
    ("lower left corner", [0.7, 0.7]),
    ("upper right corner", [-0.7, -0.7]),
    ("upper left corner", [-0.7, 0.7]),
];

/// One more view.
#[derive(Clone, Copy, Debug, PartialEq)]
pub struct NextView {
    /// Which edge or corner of the plate is turned away.
    pub turned: &'static str,
    /// What part of each tilt's ± by noise and lens would be left.
    pub left: [f64; 2],
}

/// The best of eight turns by 30°, for the tilt that is less certain; of tilt x alone where y is held.
#[must_use]
pub fn next_view(host: &Host, lean: &Lean, is_held: bool) -> Option<NextView> {
    let views = host.distinct();
    match lean.open() {
        Some(open) => {
            let known = prior(host, &lean.plain, lean.lens);
            best(&host.problem(&views, known), ALL, (&open.fitted, host.hand()), is_held)
        }
        None => {
            let problem = host.problem(&views, Prior::default());
            best(&problem, TILTED, (&lean.plain.fitted, host.hand()), is_held)
        }
    }
}

fn best<const N: usize>(
    problem: &Problem,
    free: [usize; N],
    (at, hand): (&Fitted, f64),
    is_held: bool,
) -> Option<NextView> {
    let now = total(problem, free, at)?;
    let variances = |all: &Equations<N>| all.covariance().map(|c| [c[2][2], c[3][3]]);
    let here = variances(&now)?;
    let worse = usize::from(!is_held && here[1] > here[0]);
    let view = problem.views.first()?;
    let count = at.poses.len() as f64;
    let mean = |k: usize| at.poses.iter().map(|pose| pose.origin[k]).sum::<f64>() / count;
    let facing =
        Pose { x_axis: [1.0, 0.0, 0.0], y_axis: [0.0, hand, 0.0], origin: [0, 1, 2].map(mean) };
    let with = |&(turned, [x, y]): &(&'static str, [f64; 2])| {
        let pose = facing.turned([x * TURN, y * TURN, 0.0]);
        let more = problem.one_more(free, &at.shared, (view, &pose))?;
        let there = variances(&now.with(1.0, &more))?;
        Some(NextView { turned, left: [0, 1].map(|i| (there[i] / here[i]).sqrt()) })
    };
    let all = TURNS.iter().filter_map(with);
    all.min_by(|a, b| a.left[worse].total_cmp(&b.left[worse]))
}
