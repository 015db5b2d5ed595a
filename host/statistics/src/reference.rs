//! The yardstick: the least squares of the errors in pixels over all poses and some of what the views share, with the centre
//! held.
//!
//! It is Gauss and Newton's method, from a start that is near (the true values), with the step halved until the squares shrink.
//! Derivatives are exact, by forward mode; a pose is a matrix and a place, and is moved by a small rotation. The equations are
//! never squared: each view's rows are reflected until its pose stands apart (Householder), and what is left of all views is
//! reflected again. The covariance comes from the last triangle.

use crate::dual::Dual;
use crate::model::{Camera, Pose, Shared, product, rotation};
use crate::orthogonal::Table;
use std::array::from_fn;
use tool::views::{Plate, View};

/// The tilts, focal lengths and poses are free, and the lens is held.
pub const PLAIN: &[usize] = &[0, 1, 2, 3];
/// k1, k2, p1 and p2 are free too.
pub const BENT: &[usize] = &[0, 1, 2, 3, 4, 5, 6, 7];
/// The focal lengths and poses alone.
pub const HELD: &[usize] = &[0, 1];

/// A view's pose, and what all views share.
const POSE: usize = 6;
const VARIABLES: usize = POSE + 8;
/// Far more than a near start needs.
const MOST_STEPS: usize = 200;
/// A step that would take less than this part off the squares is the last; and one that would take less than this off a pixel's
/// error, which is rounding.
const LAST: f64 = 1e-19;
const ROUNDED: f64 = 1e-10;
/// What rounding makes of a pixel's coordinate at most.
const ROUNDED_PIXEL: f64 = 1e-12;

/// Views with the centre that is held.
pub struct Problem<'a> {
    views: &'a [View],
    centre: [f64; 2],
    middles: Vec<[f64; 2]>,
}

/// A camera and poses. Each pose is that of the middle of the view's places.
#[derive(Clone, Debug)]
pub struct Fit {
    /// What all views share.
    pub shared: Shared<f64>,
    /// The poses.
    pub poses: Vec<Pose<f64>>,
    /// The sum of squared errors, in pixels².
    pub squares: f64,
}

/// What a step would do.
struct Step {
    shared: Vec<f64>,
    poses: Vec<Vec<f64>>,
    /// What it would take off the squares if the errors were linear.
    gain: f64,
}

/// The reflected equations of all views.
struct Equations {
    /// Of each view: its pose's triangle, the shared numbers' columns, the errors.
    of_views: Vec<Table>,
    /// The triangle of the shared numbers, and the errors.
    shared: Table,
}

impl<'a> Problem<'a> {
    /// The problem of a plate's views.
    ///
    /// # Panics
    ///
    /// No centre is stated.
    #[must_use]
    pub fn new(plate: &'a Plate) -> Self {
        let middle = |view: &View| {
            let mean = |sum: f64| sum / view.dots() as f64;
            let [x, y] = [0, 1].map(|i| view.board.iter().map(|at| [at.x, at.y][i]).sum());
            [mean(x), mean(y)]
        };
        let middles = plate.views.iter().map(middle).collect();
        Self { views: &plate.views, centre: plate.centre.expect("a centre"), middles }
    }

    /// How many numbers the dots bring beyond those that are solved for.
    #[must_use]
    pub fn freedom(&self, free: &[usize]) -> usize {
        let numbers: usize = self.views.iter().map(|view| 2 * view.dots()).sum();
        numbers.saturating_sub(POSE * self.views.len() + free.len())
    }

    /// Poses of the plate's origin as those of the views' middles.
    #[must_use]
    pub fn start(&self, shared: Shared<f64>, poses: &[Pose<f64>]) -> Fit {
        let moved = poses.iter().zip(&self.middles).map(|(pose, [a, b])| Pose {
            place: from_fn(|i| pose.place[i] + pose.turn[i][0] * a + pose.turn[i][1] * b),
            ..*pose
        });
        self.at(shared, moved.collect())
    }

    /// A fit with other tilts and the poses as they are: a start, and no optimum.
    #[must_use]
    pub fn with_tilts(&self, fit: &Fit, tilts: [f64; 2]) -> Fit {
        let mut shared = fit.shared;
        shared[2..4].copy_from_slice(&tilts);
        self.at(shared, fit.poses.clone())
    }

    fn at(&self, shared: Shared<f64>, poses: Vec<Pose<f64>>) -> Fit {
        let camera = Camera::new(&shared, self.centre);
        let of_view = |i: usize| -> f64 {
            self.dots(i)
                .map(|(place, seen)| {
                    let [u, v] = camera.pixel(&poses[i], place);
                    (u - seen[0]).powi(2) + (v - seen[1]).powi(2)
                })
                .sum()
        };
        let squares = (0..self.views.len()).map(of_view).sum();
        Fit { shared, poses, squares }
    }

    /// A view's places, from its middle, and its pixels.
    fn dots(&self, i: usize) -> impl Iterator<Item = ([f64; 2], [f64; 2])> + '_ {
        let (view, [a, b]) = (&self.views[i], self.middles[i]);
        let places = view.board.iter().map(move |place| [place.x - a, place.y - b]);
        places.zip(view.pixels.iter().map(|pixel| [pixel.x, pixel.y]))
    }

    /// The optimum over all poses and the `free` shared numbers, from a near start; nothing where no number is left over, or the
    /// steps don't end.
    #[must_use]
    pub fn optimum(&self, free: &[usize], start: Fit) -> Option<Fit> {
        if self.freedom(free) == 0 {
            return None;
        }
        let mut fit = start;
        for _ in 0..MOST_STEPS {
            let step = self.equations(free, &fit).step(free.len())?;
            let is_last = step.gain <= LAST * fit.squares + ROUNDED * ROUNDED;
            if is_last {
                return Some(fit);
            }
            fit = self.shorter(free, &fit, &step)?;
        }
        None
    }

    /// The step, halved until the squares don't grow by more than the pixels' rounding makes them: a part of a step that does
    /// nothing would be taken again and again.
    fn shorter(&self, free: &[usize], fit: &Fit, step: &Step) -> Option<Fit> {
        let numbers: usize = self.views.iter().map(|view| 2 * view.dots()).sum();
        let most = fit.squares + 2.0 * ROUNDED_PIXEL * (numbers as f64 * fit.squares).sqrt();
        let halved = (0..40).map(|halvings| 0.5f64.powi(halvings));
        let mut moved = halved.map(|part| self.moved(free, fit, step, part));
        moved.find(|next| next.squares <= most)
    }

    fn moved(&self, free: &[usize], fit: &Fit, step: &Step, part: f64) -> Fit {
        let mut shared = fit.shared;
        free.iter().zip(&step.shared).for_each(|(number, by)| shared[*number] += part * by);
        let moved = fit.poses.iter().zip(&step.poses).map(|(pose, by)| Pose {
            turn: product(&pose.turn, &rotation([0, 1, 2].map(|i| part * by[i]))),
            place: from_fn(|i| pose.place[i] + part * by[3 + i]),
        });
        self.at(shared, moved.collect())
    }

    fn equations(&self, free: &[usize], fit: &Fit) -> Equations {
        let shared: Shared<Dual<VARIABLES>> = from_fn(|i| Dual::variable(fit.shared[i], POSE + i));
        let camera = Camera::new(&shared, self.centre);
        let (mut of_views, mut all) = (vec![], Table::new(free.len() + 1));
        for (i, pose) in fit.poses.iter().enumerate() {
            let mut view = Table::new(POSE + free.len() + 1);
            let pose = movable(pose);
            for (place, seen) in self.dots(i) {
                let errors = camera.pixel(&pose, place);
                errors.iter().zip(seen).for_each(|(at, seen)| view.push(&row(at, seen, free)));
            }
            view.reduce(POSE + free.len() + 1);
            let left = view.rest(POSE, POSE);
            (0..left.rows().min(free.len() + 1)).for_each(|i| all.push(left.row(i)));
            of_views.push(view);
        }
        all.reduce(free.len() + 1);
        Equations { of_views, shared: all }
    }

    /// The standard deviations of the free shared numbers at an optimum, s²·(JᵀJ)⁻¹ with s² from the residuals.
    #[must_use]
    pub fn deviations(&self, free: &[usize], optimum: &Fit) -> Option<Vec<f64>> {
        let variances = self.equations(free, optimum).shared.variances(free.len())?;
        let pixel = optimum.squares / self.freedom(free) as f64;
        Some(variances.into_iter().map(|variance| (variance * pixel).sqrt()).collect())
    }
}

/// One number of a pixel: its derivatives by the pose and the free shared numbers, and its error.
fn row(at: &Dual<VARIABLES>, seen: f64, free: &[usize]) -> Vec<f64> {
    let by_pose = at.slopes[..POSE].iter().copied();
    let by_shared = free.iter().map(|number| at.slopes[POSE + number]);
    by_pose.chain(by_shared).chain([at.value - seen]).collect()
}

/// A pose whose variables are a small rotation before it, R·(1 + [w]), and its place.
fn movable(pose: &Pose<f64>) -> Pose<Dual<VARIABLES>> {
    let r = &pose.turn;
    let entry = |i: usize, j: usize| {
        // R·[w]: column j of [w] has w at the two other places, with opposite signs.
        let (next, last) = ((j + 1) % 3, (j + 2) % 3);
        let mut slopes = [0.0; VARIABLES];
        slopes[last] = r[i][next];
        slopes[next] = -r[i][last];
        Dual { value: r[i][j], slopes }
    };
    Pose {
        turn: from_fn(|i| from_fn(|j| entry(i, j))),
        place: from_fn(|i| Dual::variable(pose.place[i], 3 + i)),
    }
}

impl Equations {
    fn step(&self, shared: usize) -> Option<Step> {
        let right = |table: &Table, rows: usize| -> Vec<f64> {
            (0..rows).map(|i| -table.row(i).last().copied().unwrap_or(f64::NAN)).collect()
        };
        let of_shared = right(&self.shared, shared);
        let mut gain: f64 = of_shared.iter().map(|x| x * x).sum();
        let by = self.shared.solve(&of_shared)?;
        let mut poses = vec![];
        for view in &self.of_views {
            let mut of_pose = right(view, POSE);
            gain += of_pose.iter().map(|x| x * x).sum::<f64>();
            for (i, entry) in of_pose.iter_mut().enumerate() {
                let known = view.row(i)[POSE..].iter().zip(&by);
                *entry -= known.map(|(slope, by)| slope * by).sum::<f64>();
            }
            poses.push(view.solve(&of_pose)?);
        }
        Some(Step { shared: by, poses, gain })
    }
}

#[cfg(test)]
mod tests {
    use super::*;
    use crate::draw::{Drawn, Kind, draw};
    use random::Random;

    #[test]
    fn without_noise_the_truth_is_the_optimum() {
        let mut random = Random::named("without noise");
        for focal in [1_420.0, 14_200.0] {
            let kind = Kind { focal: [focal; 2], ..Kind::clean(4, 0.0) };
            let Drawn { plate, shared, poses } = draw(&kind, &mut random);
            let problem = Problem::new(&plate);
            let start = problem.start(shared, &poses);
            assert!(start.squares < 1e-15, "{}", start.squares);
            let mut beside = shared;
            beside[2] += 0.01;
            beside[1] *= 1.001;
            let fit = problem.optimum(PLAIN, problem.start(beside, &poses)).unwrap();
            assert!(fit.squares < 1e-15, "{}", fit.squares);
            assert!((fit.shared[2] - shared[2]).hypot(fit.shared[3] - shared[3]) < 1e-7);
        }
    }

    /// Sets of three views for which steps were halved until they did nothing, without an end.
    #[test]
    fn steps_end_where_rounding_hides_what_they_gain() {
        for (set, free) in [(104, PLAIN), (219, BENT), (221, BENT)] {
            let mut random = Random::named(&format!("dff61634 clean 3 0.05 {set}"));
            let kind = Kind { is_spread: random.below(2) == 0, ..Kind::clean(3, 0.05) };
            let Drawn { plate, shared, poses } = draw(&kind, &mut random);
            let problem = Problem::new(&plate);
            assert!(problem.optimum(free, problem.start(shared, &poses)).is_some(), "{set}");
        }
    }

    /// Of a sum of squares with 2n numbers and so many unknowns, the mean is the freedom times the noise's square.
    #[test]
    fn residuals_have_the_size_that_the_freedom_gives() {
        let mut random = Random::named("residuals");
        let mut ratios = vec![];
        for _ in 0..60 {
            let kind = Kind { dots: Some([5, 4]), ..Kind::clean(3, 0.2) };
            let Drawn { plate, shared, poses } = draw(&kind, &mut random);
            let problem = Problem::new(&plate);
            let fit = problem.optimum(PLAIN, problem.start(shared, &poses)).unwrap();
            ratios.push(fit.squares / (0.04 * problem.freedom(PLAIN) as f64));
        }
        // Each has a deviation of √(2/98); five of the mean's are 0.09.
        let mean = ratios.iter().sum::<f64>() / 60.0;
        assert!((mean - 1.0).abs() < 0.09, "{mean}");
    }
}
