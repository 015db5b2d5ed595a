//! Views of a plate in random poses, as a camera with known tilts sees them.

use crate::model::{Camera, Pose, Shared, product, rotation};
use jinnychair::Pt2;
use random::Random;
use std::f64::consts::{PI, TAU};
use tool::views::{Plate, View};

/// Half of the picture, in pixels.
const HALF: [f64; 2] = [655.0, 470.0];

/// What is drawn.
#[derive(Clone, Copy, Debug, PartialEq)]
pub struct Kind {
    /// How many views.
    pub views: usize,
    /// The deviation of a pixel's errors along each axis.
    pub noise: f64,
    /// The least and the most focal length, in pixels.
    pub focal: [f64; 2],
    /// Between what each tilt lies, in degrees.
    pub tilts: [[f64; 2]; 2],
    /// k1, k2, p1, p2.
    pub lens: [f64; 4],
    /// The plate's dots along each axis; at random where it isn't said.
    pub dots: Option<[usize; 2]>,
    /// How far the stated centre lies beside the true one at most, in pixels.
    pub centre_off: f64,
    /// How far the plate is turned out of the picture's plane, in degrees.
    pub turn: [f64; 2],
    /// Whether the plate's turns are spread about all axes, as an instruction for service would have it, or are random.
    pub is_spread: bool,
}

impl Kind {
    /// A usual camera without a lens, with tilts that the usual lists reach.
    #[must_use]
    pub fn clean(views: usize, noise: f64) -> Self {
        Self {
            views,
            noise,
            focal: [1200.0, 2400.0],
            tilts: [[-9.0, 9.0], [-2.4, 2.4]],
            lens: [0.0; 4],
            dots: None,
            centre_off: 0.0,
            turn: [15.0, 40.0],
            is_spread: true,
        }
    }
}

/// Drawn views, with what is true of them.
#[derive(Clone, Debug)]
pub struct Drawn {
    /// The views, with a centre stated: the true one, unless it is asked for beside it.
    pub plate: Plate,
    /// What all views share.
    pub shared: Shared<f64>,
    /// Where the plate's origin stood.
    pub poses: Vec<Pose<f64>>,
}

/// A number from one to another.
pub fn between(random: &mut Random, least: f64, most: f64) -> f64 {
    least + (most - least) * random.unit()
}

/// A normal deviate (Box, Muller 1958).
fn normal(random: &mut Random) -> f64 {
    let radius = (-2.0 * (1.0 - random.unit()).ln()).sqrt();
    radius * (TAU * random.unit()).cos()
}

/// The plate of a set: its dots, how far they are apart, and where its origin is, in its own unit.
struct Grid {
    dots: [usize; 2],
    pitch: f64,
    origin: [f64; 2],
}

impl Grid {
    /// Any unit from a thousandth to a thousand, and an origin up to ten plates away.
    fn drawn(random: &mut Random, dots: Option<[usize; 2]>) -> Self {
        let dots = dots.unwrap_or_else(|| [5 + random.below(4), 4 + random.below(3)]);
        let pitch = 20.0 * 10f64.powf(random.within(3.0));
        let away = random.pick(&[0.0, 0.5, 1.0, 10.0]) * 10.0 * pitch;
        Self { dots, pitch, origin: [random.within(away), random.within(away)] }
    }

    /// Half of the diagonal.
    fn half(&self) -> f64 {
        let [nx, ny] = self.dots.map(|dots| (dots - 1) as f64);
        0.5 * self.pitch * nx.hypot(ny)
    }

    /// The plate's middle.
    fn middle(&self) -> [f64; 2] {
        [0, 1].map(|i| self.origin[i] + 0.5 * self.pitch * (self.dots[i] - 1) as f64)
    }

    fn places(&self) -> impl Iterator<Item = [f64; 2]> + '_ {
        let [nx, ny] = self.dots;
        (0..nx * ny).map(move |i| {
            let along = [i % nx, i / nx].map(|index| index as f64 * self.pitch);
            [0, 1].map(|i| self.origin[i] + along[i])
        })
    }
}

/// Draws views. The same source gives the same ones.
#[must_use]
pub fn draw(kind: &Kind, random: &mut Random) -> Drawn {
    let centre = HALF.map(|half| half + random.within(0.09 * half));
    let fx = between(random, kind.focal[0], kind.focal[1]);
    let fy = fx * (1.0 + random.within(0.01));
    let [tilt_x, tilt_y] =
        kind.tilts.map(|[least, most]| between(random, least, most).to_radians());
    let [k1, k2, p1, p2] = kind.lens;
    let shared = [fx, fy, tilt_x, tilt_y, k1, k2, p1, p2];
    let (camera, grid) = (Camera::new(&shared, centre), Grid::drawn(random, kind.dots));
    let first = random.unit();
    let (mut poses, mut views) = (vec![], vec![]);
    while views.len() < kind.views {
        let about = if kind.is_spread {
            (views.len() as f64 * 0.618_034 + first + random.within(0.08)) * TAU
        } else {
            random.within(PI)
        };
        let pose = pose(random, kind.turn, about, &grid, fx);
        views.push(view(&camera, &pose, &grid, kind, random));
        poses.push(pose);
    }
    let stated = beside(random, centre, kind.centre_off);
    Drawn { plate: Plate { centre: Some(stated), views }, shared, poses }
}

/// A point within so much of another one, in any direction.
fn beside(random: &mut Random, [x, y]: [f64; 2], most: f64) -> [f64; 2] {
    let (off, (sine, cosine)) = (most * random.unit().sqrt(), random.within(PI).sin_cos());
    [x + off * cosine, y + off * sine]
}

/// A pose that shows the plate in most of the picture, turned as far as asked, one in eight by less, about an axis in the plate's
/// plane, and by up to 34° in the picture's plane.
fn pose(
    random: &mut Random,
    [least, most]: [f64; 2],
    about: f64,
    grid: &Grid,
    focal: f64,
) -> Pose<f64> {
    let least = if random.once_in(8) { 0.0 } else { least };
    let turn = between(random, least, most).to_radians();
    let tilted = rotation([turn * about.cos(), turn * about.sin(), 0.0]);
    let turn = product(&rotation([0.0, 0.0, random.within(0.6)]), &tilted);
    let depth = focal * grid.half() / (between(random, 0.6, 0.95) * HALF[1]);
    let beside = HALF.map(|half| random.within(0.3 * half) * depth / focal);
    let [a, b] = grid.middle();
    let middle = [beside[0], beside[1], depth];
    let place = std::array::from_fn(|i| middle[i] - turn[i][0] * a - turn[i][1] * b);
    Pose { turn, place }
}

/// A view; in every third a few dots weren't seen.
fn view(
    camera: &Camera<f64>,
    pose: &Pose<f64>,
    grid: &Grid,
    kind: &Kind,
    random: &mut Random,
) -> View {
    let is_whole = kind.dots.is_some() || !random.once_in(3);
    let mut view = View::default();
    for place in grid.places() {
        let [u, v] = camera.pixel(pose, place).map(|at| at + kind.noise * normal(random));
        if is_whole || !random.once_in(10) {
            view.board.push(Pt2 { x: place[0], y: place[1] });
            view.pixels.push(Pt2 { x: u, y: v });
        }
    }
    view
}

#[cfg(test)]
mod tests {
    use super::*;

    /// All that is drawn is in front of the camera, mostly in the picture, and the same again from the same source.
    #[test]
    fn drawn_views_could_be_photographs() {
        let mut random = Random::named("photographs");
        for _ in 0..50 {
            let kind = Kind::clean(6, 0.1);
            let drawn = draw(&kind, &mut random);
            let pixels = drawn.plate.pixels();
            let is_inside = |at: &&Pt2| {
                [at.x / HALF[0], at.y / HALF[1]].iter().all(|at| (0.0..2.0).contains(at))
            };
            let inside = pixels.iter().filter(is_inside).count();
            assert!(10 * inside >= 8 * pixels.len(), "{inside} of {}", pixels.len());
            for (pose, view) in drawn.poses.iter().zip(&drawn.plate.views) {
                let depth =
                    |at: &Pt2| pose.turn[2][0] * at.x + pose.turn[2][1] * at.y + pose.place[2];
                assert!(view.board.iter().all(|at| depth(at) > 0.0));
            }
        }
        let again = |seed: &str| draw(&Kind::clean(3, 0.1), &mut Random::named(seed)).plate;
        assert_eq!(again("one"), again("one"));
        assert_ne!(again("one"), again("another"));
    }

    #[test]
    fn noise_has_its_deviation() {
        let mut random = Random::named("noise");
        let deviates: Vec<f64> = (0..10_000).map(|_| normal(&mut random)).collect();
        let mean = deviates.iter().sum::<f64>() / 1e4;
        assert!(mean.abs() < 0.05);
        assert!((crate::tally::rms(deviates) - 1.0).abs() < 0.05);
    }
}
