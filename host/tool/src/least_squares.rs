//! The camera and poses with the smallest sum of squared errors in the pixels: Levenberg-Marquardt with analytic
//! derivatives, the poses eliminated view by view (Schur complement).
//!
//! The centre is held. Which of the numbers that all views share are free is the caller's choice: the focal lengths alone
//! for a seed's tilts, the tilts too for the lean, and the lens for what it could be. A view's own numbers are six: a turn
//! about its plate's middle, and the place of that. By + − × ÷ √ and [`crate::elementary`] alone.

use crate::camera::{Camera, Shared};
use crate::linear::{factor, solve_factored};
use crate::pose::Pose;
use crate::views::View;
use jinnychair::Pt2;

/// The focal lengths.
pub const FOCAL: [usize; 2] = [0, 1];
/// With p1 and p2.
pub const FOCAL_TANGENTIAL: [usize; 4] = [0, 1, 6, 7];
/// With the tilts.
pub const TILTED: [usize; 4] = [0, 1, 2, 3];
/// With the tilts, p1 and p2.
pub const TILTED_TANGENTIAL: [usize; 6] = [0, 1, 2, 3, 6, 7];
/// All: with k1, k2, p1 and p2.
pub const ALL: [usize; 8] = [0, 1, 2, 3, 4, 5, 6, 7];

/// How far an optimum is followed.
#[derive(Clone, Copy, Debug)]
pub struct Effort {
    most_steps: usize,
    /// Where a step is expected to gain less than this part of the squares, it is the last.
    least_gain: f64,
}

/// For a seed, whose tilts are held.
pub const FOR_A_SEED: Effort = Effort { most_steps: 30, least_gain: 1e-10 };
/// For the lean, once in a search: where the field is narrow its valley is long and bent.
pub const FOR_THE_LEAN: Effort = Effort { most_steps: 300, least_gain: 1e-14 };

/// The first damping, how it changes with a step's success, and where it ends.
const FIRST_DAMPING: f64 = 1e-6;
const DAMPING_FACTOR: f64 = 10.0;
const LEAST_DAMPING: f64 = 1e-15;
const MOST_DAMPING: f64 = 1e9;

/// A view with its plate's coordinates about their own middle, in units of their spread, so that neither the plate's origin
/// nor its unit matters.
#[derive(Clone, Debug)]
pub struct Centred {
    dots: Vec<[f64; 4]>,
    middle: [f64; 2],
    unit: f64,
}

impl Centred {
    /// Centres a view.
    #[must_use]
    pub fn new(view: &View) -> Self {
        let count = view.dots() as f64;
        let mean = |of: fn(&Pt2) -> f64| view.board.iter().map(of).sum::<f64>() / count;
        let middle = [mean(|place| place.x), mean(|place| place.y)];
        let away = |place: &Pt2| (place.x - middle[0]).abs().max((place.y - middle[1]).abs());
        let unit = view.board.iter().map(away).fold(0.0, f64::max);
        let dots = view.board.iter().zip(&view.pixels).map(|(place, pixel)| {
            [(place.x - middle[0]) / unit, (place.y - middle[1]) / unit, pixel.x, pixel.y]
        });
        Self { dots: dots.collect(), middle, unit }
    }

    /// How many dots the view shows.
    #[must_use]
    pub fn dots(&self) -> usize {
        self.dots.len()
    }

    /// The places on the plate, centred.
    #[must_use]
    pub fn board(&self) -> Vec<Pt2> {
        self.dots.iter().map(|&[x, y, ..]| Pt2 { x, y }).collect()
    }

    /// A place on the plate as it is stated, centred.
    #[must_use]
    pub fn enter(&self, place: &Pt2) -> [f64; 2] {
        [(place.x - self.middle[0]) / self.unit, (place.y - self.middle[1]) / self.unit]
    }
}

/// What is known of the shared numbers beforehand: a mean, and the weight of the square of what lies beside it; 0 where
/// nothing is known.
#[derive(Clone, Copy, Debug, Default)]
pub struct Prior {
    /// The means.
    pub means: Shared,
    /// The weights.
    pub weights: Shared,
}

/// The views, the held centre, and what is known beforehand.
#[derive(Clone, Debug)]
pub struct Problem<'a> {
    /// The views.
    pub views: &'a [Centred],
    /// The held centre.
    pub centre: [f64; 2],
    /// The lens's factor of r⁶, which is never solved for.
    pub k3: f64,
    /// What is known of the others.
    pub prior: Prior,
}

/// A camera and poses, and their sum of squared errors.
#[derive(Clone, Debug)]
pub struct Fitted {
    /// What all views share.
    pub shared: Shared,
    /// A pose for each view, of its plate's middle.
    pub poses: Vec<Pose>,
    /// The sum of squares, with what the prior adds.
    pub squares: f64,
}

/// One coordinate of one dot: its error, and its derivatives by the view's pose and by the free shared numbers.
pub struct Row<const N: usize> {
    /// 0 along the picture's x axis, 1 along y.
    pub axis: usize,
    /// Where the camera puts it, less where it is seen, in pixels.
    pub error: f64,
    /// By the pose.
    pub own: [f64; 6],
    /// By the shared numbers.
    pub shared: [f64; N],
}

/// A view's part of the normal equations.
struct Part<const N: usize> {
    own: [[f64; 6]; 6],
    own_slope: [f64; 6],
    mixed: [[f64; N]; 6],
    shared: [[f64; N]; N],
    slope: [f64; N],
    squares: f64,
}

/// Equations for the shared numbers alone: what views say of them, their poses taken out.
#[derive(Clone, Copy, Debug)]
pub struct Equations<const N: usize> {
    /// JᵀJ, reduced.
    pub matrix: [[f64; N]; N],
    /// Jᵀ × errors, reduced.
    pub slope: [f64; N],
    /// The squares that are left when the poses alone have moved to their best.
    pub squares: f64,
}

impl<const N: usize> Equations<N> {
    /// Those that say nothing.
    #[must_use]
    pub fn none() -> Self {
        Self { matrix: [[0.0; N]; N], slope: [0.0; N], squares: 0.0 }
    }

    /// These and `sign` times the others.
    #[must_use]
    pub fn with(mut self, sign: f64, others: &Self) -> Self {
        for i in 0..N {
            (0..N).for_each(|j| self.matrix[i][j] += sign * others.matrix[i][j]);
            self.slope[i] += sign * others.slope[i];
        }
        self.squares += sign * others.squares;
        self
    }

    /// Their inverse: the covariance of the shared numbers, without the variance of a pixel. Nothing where they don't
    /// determine them.
    #[must_use]
    pub fn covariance(&self) -> Option<[[f64; N]; N]> {
        let l = factor(&self.matrix)?;
        let column = |i: usize| {
            let mut unit = [0.0; N];
            unit[i] = 1.0;
            solve_factored(&l, unit)
        };
        let inverse: [[f64; N]; N] = std::array::from_fn(column);
        inverse.as_flattened().iter().all(|entry| entry.is_finite()).then_some(inverse)
    }

    /// The step to their solution, and the squares there.
    #[must_use]
    pub fn solution(&self) -> Option<([f64; N], f64)> {
        let step = solve_factored(&factor(&self.matrix)?, self.slope).map(|entry| -entry);
        let gain: f64 = step.iter().zip(self.slope).map(|(step, slope)| step * slope).sum();
        Some((step, self.squares + gain))
    }
}

/// A pose's way to its best for given shared numbers.
struct Taken<const N: usize> {
    by_shared: [[f64; 6]; N],
    alone: [f64; 6],
}

impl<const N: usize> Part<N> {
    const NOTHING: Self = Self {
        own: [[0.0; 6]; 6],
        own_slope: [0.0; 6],
        mixed: [[0.0; N]; 6],
        shared: [[0.0; N]; N],
        slope: [0.0; N],
        squares: 0.0,
    };

    fn add(&mut self, Row { error, own, shared, .. }: &Row<N>) {
        for k in 0..6 {
            (0..=k).for_each(|l| self.own[k][l] += own[k] * own[l]);
            (0..N).for_each(|n| self.mixed[k][n] += own[k] * shared[n]);
            self.own_slope[k] += own[k] * error;
        }
        for n in 0..N {
            (0..N).for_each(|m| self.shared[n][m] += shared[n] * shared[m]);
            self.slope[n] += shared[n] * error;
        }
        self.squares += error * error;
    }

    /// The view's equations without its pose, and the pose's way. Marquardt's damping raises the diagonals.
    fn reduced(&self, damping: f64) -> Option<(Equations<N>, Taken<N>)> {
        let mut own = self.own;
        (0..6).for_each(|i| own[i][i] *= 1.0 + damping);
        let l = factor(&own)?;
        let by_shared: [[f64; 6]; N] =
            std::array::from_fn(|n| solve_factored(&l, std::array::from_fn(|k| self.mixed[k][n])));
        let alone = solve_factored(&l, self.own_slope);
        let mut left = Equations { matrix: self.shared, slope: self.slope, squares: self.squares };
        for n in 0..N {
            left.matrix[n][n] *= 1.0 + damping;
            let along = |v: &[f64; 6]| (0..6).map(|k| self.mixed[k][n] * v[k]).sum::<f64>();
            (0..N).for_each(|m| left.matrix[n][m] -= along(&by_shared[m]));
            left.slope[n] -= along(&alone);
        }
        left.squares -= (0..6).map(|k| self.own_slope[k] * alone[k]).sum::<f64>();
        Some((left, Taken { by_shared, alone }))
    }
}

/// The normal equations at a camera.
struct Normal<const N: usize> {
    parts: Vec<Part<N>>,
    prior: Equations<N>,
    squares: f64,
}

/// A step, and how much smaller it is expected to make the squares.
struct Step<const N: usize> {
    shared: [f64; N],
    poses: Vec<[f64; 6]>,
    gain: f64,
}

impl<const N: usize> Normal<N> {
    fn step(&self, damping: f64) -> Option<Step<N>> {
        let mut all = self.prior;
        (0..N).for_each(|n| all.matrix[n][n] *= 1.0 + damping);
        let mut ways = Vec::with_capacity(self.parts.len());
        for part in &self.parts {
            let (left, taken) = part.reduced(damping)?;
            all = all.with(1.0, &left);
            ways.push(taken);
        }
        let (shared, squares) = all.solution()?;
        let pose = |taken: &Taken<N>| -> [f64; 6] {
            let by_shared =
                |k: usize| (0..N).map(|n| taken.by_shared[n][k] * shared[n]).sum::<f64>();
            std::array::from_fn(|k| -taken.alone[k] - by_shared(k))
        };
        let gain = self.squares - squares;
        gain.is_finite().then(|| Step { shared, poses: ways.iter().map(pose).collect(), gain })
    }
}

/// A place on the way to an optimum, and the damping that the next step begins with.
struct Place<const N: usize> {
    at: Fitted,
    normal: Normal<N>,
    damping: f64,
}

impl Problem<'_> {
    /// The optimum over the free shared numbers and all poses, from a start on; nothing where the start has a dot behind the
    /// camera, or the way from it leads nowhere.
    #[must_use]
    pub fn optimum<const N: usize>(
        &self,
        free: [usize; N],
        start: Fitted,
        effort: Effort,
    ) -> Option<Fitted> {
        let normal = self.normal(free, &start)?;
        let mut place = Place { at: start, normal, damping: FIRST_DAMPING };
        for _ in 0..effort.most_steps {
            if self.moves(free, &mut place, effort.least_gain)? {
                break;
            }
        }
        let Place { at, normal, .. } = place;
        let is_finite = at.shared.iter().all(|entry| entry.is_finite());
        (is_finite && normal.squares.is_finite())
            .then_some(Fitted { squares: normal.squares, ..at })
    }

    /// Moves on by one step, and says whether it was the last; nothing where no damping leads to one.
    fn moves<const N: usize>(
        &self,
        free: [usize; N],
        place: &mut Place<N>,
        least_gain: f64,
    ) -> Option<bool> {
        while place.damping <= MOST_DAMPING {
            if let Some(step) = place.normal.step(place.damping) {
                let is_small = step.gain <= least_gain * place.normal.squares;
                let next = moved(&place.at, free, &step);
                let normal = self.normal(free, &next);
                if let Some(normal) = normal.filter(|new| new.squares < place.normal.squares) {
                    let damping = (place.damping / DAMPING_FACTOR).max(LEAST_DAMPING);
                    *place = Place { at: next, normal, damping };
                    return Some(is_small);
                }
                if is_small {
                    return Some(true);
                }
            }
            place.damping *= DAMPING_FACTOR;
        }
        // No step makes the squares smaller; without any step there is no way at all.
        place.normal.step(0.0).map(|_| true)
    }

    /// What each view says of the shared numbers at a camera, and what is known beforehand.
    #[must_use]
    pub fn equations<const N: usize>(
        &self,
        free: [usize; N],
        at: &Fitted,
    ) -> Option<(Vec<Equations<N>>, Equations<N>)> {
        let normal = self.normal(free, at)?;
        let views = normal.parts.iter().map(|part| Some(part.reduced(0.0)?.0));
        Some((views.collect::<Option<_>>()?, normal.prior))
    }

    /// Gives all rows of a view; nothing where a dot is behind the camera.
    pub fn rows<const N: usize>(
        &self,
        free: [usize; N],
        at: &Fitted,
        view: usize,
        mut each: impl FnMut(Row<N>),
    ) -> Option<()> {
        let camera = Camera::new(&at.shared, self.centre, self.k3)?;
        self.rows_of(&camera, free, (&self.views[view], &at.poses[view]), &mut each)
    }

    fn rows_of<const N: usize>(
        &self,
        camera: &Camera,
        free: [usize; N],
        (view, pose): (&Centred, &Pose),
        each: &mut impl FnMut(Row<N>),
    ) -> Option<()> {
        for &[a, b, u, v] in &view.dots {
            let sight = camera.see(pose, [a, b])?;
            for (axis, seen) in [u, v].into_iter().enumerate() {
                let slopes = camera.slopes(&sight, axis);
                each(Row {
                    axis,
                    error: camera.pixel(&sight, axis) - seen,
                    own: camera.by_pose(&sight, &slopes),
                    shared: free.map(|which| camera.by_shared(&sight, &slopes, which)),
                });
            }
        }
        Some(())
    }

    /// What one more view of these dots in this pose would say.
    #[must_use]
    pub fn one_more<const N: usize>(
        &self,
        free: [usize; N],
        shared: &Shared,
        view: (&Centred, &Pose),
    ) -> Option<Equations<N>> {
        let camera = Camera::new(shared, self.centre, self.k3)?;
        let mut part = Part::NOTHING;
        self.rows_of(&camera, free, view, &mut |row| part.add(&row))?;
        Some(part.reduced(0.0)?.0)
    }

    /// Nothing where a dot is behind the camera, or a number isn't finite.
    fn normal<const N: usize>(&self, free: [usize; N], at: &Fitted) -> Option<Normal<N>> {
        let camera = Camera::new(&at.shared, self.centre, self.k3)?;
        let mut prior = Equations::none();
        for (n, &which) in free.iter().enumerate() {
            let beside = at.shared[which] - self.prior.means[which];
            let weight = self.prior.weights[which];
            prior.matrix[n][n] = weight;
            prior.slope[n] = weight * beside;
            prior.squares += weight * beside * beside;
        }
        let mut all =
            Normal { parts: Vec::with_capacity(at.poses.len()), squares: prior.squares, prior };
        for view in self.views.iter().zip(&at.poses) {
            let mut part = Part::NOTHING;
            self.rows_of(&camera, free, view, &mut |row| part.add(&row))?;
            all.squares += part.squares;
            all.parts.push(part);
        }
        all.squares.is_finite().then_some(all)
    }

    /// How the free shared numbers move with the held centre, per pixel of its x and of its y.
    #[must_use]
    pub fn by_centre<const N: usize>(
        &self,
        free: [usize; N],
        at: &Fitted,
    ) -> Option<[[f64; N]; 2]> {
        let normal = self.normal(free, at)?;
        let (mut matrix, mut slopes) = (normal.prior, [[0.0; N]; 2]);
        for (i, part) in normal.parts.iter().enumerate() {
            let (left, taken) = part.reduced(0.0)?;
            matrix = matrix.with(1.0, &left);
            // A pixel moves with the centre by 1 along its axis.
            self.rows(free, at, i, |row| {
                for (n, slope) in slopes[row.axis].iter_mut().enumerate() {
                    let by_pose = (0..6).map(|k| row.own[k] * taken.by_shared[n][k]).sum::<f64>();
                    *slope += row.shared[n] - by_pose;
                }
            })?;
        }
        let l = factor(&matrix.matrix)?;
        Some(slopes.map(|slope| solve_factored(&l, slope).map(|entry| -entry)))
    }
}

fn moved<const N: usize>(at: &Fitted, free: [usize; N], step: &Step<N>) -> Fitted {
    let mut shared = at.shared;
    free.iter().zip(step.shared).for_each(|(&which, by)| shared[which] += by);
    let poses = at.poses.iter().zip(&step.poses);
    let poses = poses.map(|(pose, &[a, b, c, x, y, z])| pose.turned([a, b, c]).shifted([x, y, z]));
    Fitted { shared, poses: poses.collect(), squares: f64::NAN }
}

#[cfg(test)]
mod tests {
    use super::*;
    use crate::synthetic::{BUILT_IN, Truth};

    const AT: Shared = [1400.0, 1430.0, 0.05, -0.08, 0.1, -0.05, 0.01, -0.02];
    const CENTRE: [f64; 2] = [655.0, 470.0];

    fn start(views: usize) -> (Vec<Centred>, Vec<Pose>) {
        let views: Vec<_> = BUILT_IN.plate().views[..views].iter().map(Centred::new).collect();
        let poses = (0..views.len()).map(|i| {
            Pose { x_axis: [1.0, 0.0, 0.0], y_axis: [0.0, 1.0, 0.0], origin: [0.1, 0.05, 4.0] }
                .turned([0.1, 0.2 * i as f64, -0.1])
        });
        let poses = poses.collect();
        (views, poses)
    }

    #[test]
    fn slopes_are_those_of_differences() {
        let (views, poses) = start(2);
        let prior = Prior {
            means: [0.0, 0.0, 0.0, 0.0, 0.3, 0.0, 0.0, 0.0],
            weights: [0.0, 0.0, 0.0, 0.0, 1e3, 0.0, 0.0, 1e3],
        };
        let problem = Problem { views: &views, centre: CENTRE, k3: 0.04, prior };
        let at = Fitted { shared: AT, poses, squares: 0.0 };
        let normal = problem.normal(ALL, &at).unwrap();
        let squares = |step: Step<8>| problem.normal(ALL, &moved(&at, ALL, &step)).unwrap().squares;
        let difference = |which: usize, by: f64| {
            let step = |by: f64| {
                let mut numbers = [0.0; 20];
                numbers[which] = by;
                let own = |view: usize| std::array::from_fn(|i| numbers[8 + 6 * view + i]);
                let shared = std::array::from_fn(|i| numbers[i]);
                Step { shared, poses: vec![own(0), own(1)], gain: 0.0 }
            };
            (squares(step(by)) - squares(step(-by))) / (4.0 * by)
        };
        let shared = |n: usize| {
            normal.prior.slope[n] + normal.parts.iter().map(|part| part.slope[n]).sum::<f64>()
        };
        for which in 0..20 {
            let by = if which < 2 { 1e-3 } else { 1e-6 };
            let own = |of: usize| normal.parts[of / 6].own_slope[of % 6];
            let slope = if which < 8 { shared(which) } else { own(which - 8) };
            let seen = difference(which, by);
            assert!((slope - seen).abs() < 1e-5 * slope.abs().max(1.0), "{which}: {slope}, {seen}");
        }
    }

    #[test]
    fn the_optimum_without_noise_is_the_camera_that_saw_the_views() {
        let truth = Truth { noise: 0.0, ..BUILT_IN };
        let views: Vec<_> = truth.plate().views.iter().map(Centred::new).collect();
        let host = crate::solve::Host::new(truth.plate()).unwrap();
        let start = host.start([1300.0, 1300.0], [0.0, 0.0]).unwrap();
        let problem = Problem { views: &views, centre: CENTRE, k3: 0.0, prior: Prior::default() };
        let tilted = problem.optimum(TILTED, start, FOR_THE_LEAN).unwrap();
        let found = problem.optimum(ALL, tilted, FOR_THE_LEAN).unwrap();
        let sensor = truth.sensor;
        let expected = [1420.0, 1415.0, sensor.tilt_x, sensor.tilt_y, 0.0, 0.0, 0.0, 0.0];
        for (found, expected) in found.shared.iter().zip(expected) {
            let off = (found - expected).abs();
            assert!(off < 1e-9 * expected.abs().max(1.0), "{found} {expected}");
        }
    }

    /// The same from another centre: the difference is what the derivative says.
    #[test]
    fn a_moved_centre_moves_the_optimum_as_its_derivative_says() {
        let host = crate::solve::Host::new(BUILT_IN.plate()).unwrap();
        let views: Vec<_> = BUILT_IN.plate().views.iter().map(Centred::new).collect();
        let start = host.start([1400.0, 1400.0], [0.0, 0.0]).unwrap();
        let at = |centre: [f64; 2]| {
            let problem = Problem { views: &views, centre, k3: 0.0, prior: Prior::default() };
            let found = problem.optimum(TILTED, start.clone(), FOR_THE_LEAN).unwrap();
            let slopes = problem.by_centre(TILTED, &found).unwrap();
            (found.shared, slopes)
        };
        let (here, slopes) = at(CENTRE);
        for axis in 0..2 {
            let mut centre = CENTRE;
            centre[axis] += 0.1;
            let (there, _) = at(centre);
            for n in 0..4 {
                let seen = (there[n] - here[n]) / 0.1;
                let told = slopes[axis][n];
                // In noise the errors' own curvature adds a little.
                assert!((seen - told).abs() < 0.01 * told.abs().max(1e-4), "{n}: {seen}, {told}");
            }
        }
    }
}
