//! The outcome of a finding: damping, the camera check, the mean error of the rows and the score.

use crate::{Inputs, Seed};

/// A camera without tilt.
#[derive(Clone, Copy, Debug, PartialEq)]
pub struct Camera {
    /// fx, fy, cx, cy in pixels.
    pub k: [f64; 4],
    /// k1, k2, k3.
    pub radial: [f64; 3],
    /// p1, p2.
    pub tangential: [f64; 2],
}

/// What the host sends to Answer.
#[derive(Clone, Copy, Debug)]
pub enum Finding {
    /// The host found no camera.
    Failed,
    /// The host's camera.
    Solved(Camera),
}

/// The rows that come with a finding: x, y, u, v and a flag for each.
#[derive(Clone, Copy, Debug)]
pub struct Rows<'a> {
    /// Four numbers a row: the ideal point, then the seen pixel.
    pub numbers: &'a [f64],
    /// 1 where the point is in front of the camera, 0 where it isn't.
    pub flags: &'a [u8],
}

/// The numbers of a scored candidate.
#[derive(Clone, Copy, Debug, PartialEq)]
pub struct Scored {
    /// The damped camera.
    pub camera: Camera,
    /// The mean error of the counted rows, in pixels.
    pub mean: f64,
    /// The mean and the penalties.
    pub score: f64,
}

/// The errors of the rows that are counted.
#[derive(Clone, Copy, Debug, Default, PartialEq)]
pub struct Errors {
    /// Their sum, in pixels.
    pub sum: f64,
    /// How many there are.
    pub counted: usize,
}

impl Errors {
    /// Whether so many per cent of all rows are counted.
    fn are_enough(&self, per_cent: usize, rows: usize) -> bool {
        self.counted * 100 >= per_cent * rows
    }

    /// Infinity where none is counted.
    fn mean(&self) -> f64 {
        if self.counted == 0 { f64::INFINITY } else { self.sum / self.counted as f64 }
    }
}

/// What became of a candidate.
#[derive(Clone, Copy, Debug, PartialEq)]
pub enum Outcome {
    /// Left out: 1 the host failed, 2 no camera, 3 too few rows counted or no finite mean, 4 a score that isn't a number.
    Skipped(u8),
    /// Compared by its score.
    Scored(Scored),
}

type Matrix = [[f64; 3]; 3];

fn product(a: Matrix, b: Matrix) -> Matrix {
    let entry = |i: usize, j: usize| a[i][0] * b[0][j] + a[i][1] * b[1][j] + a[i][2] * b[2][j];
    std::array::from_fn(|i| std::array::from_fn(|j| entry(i, j)))
}

/// ±1/n! with the signs + + − −; n! is exact, so the quotient is rounded once.
fn coefficient(n: u64) -> f64 {
    let size = 1.0 / (1..=n).product::<u64>() as f64;
    if n % 4 < 2 { size } else { -size }
}

/// From the last of eight coefficients on, times x·x plus the one before.
fn series(first: u64, x: f64) -> f64 {
    let square = x * x;
    let before_last = [12, 10, 8, 6, 4, 2, 0].map(|n| first + n);
    before_last.iter().fold(coefficient(first + 14), |sum, &n| sum * square + coefficient(n))
}

/// Sine and cosine.
fn sine_and_cosine(x: f64) -> [f64; 2] {
    [series(1, x) * x, series(0, x)]
}

/// P × R with R = rot_y × rot_x.
fn tilt_matrix(tilts: [f64; 2]) -> Matrix {
    let [[sx, cx], [sy, cy]] = tilts.map(sine_and_cosine);
    let rot_x = [[1.0, 0.0, 0.0], [0.0, cx, sx], [0.0, -sx, cx]];
    let rot_y = [[cy, 0.0, -sy], [0.0, 1.0, 0.0], [sy, 0.0, cy]];
    let r = product(rot_y, rot_x);
    let p = [[r[2][2], 0.0, -r[0][2]], [0.0, r[2][2], -r[1][2]], [0.0, 0.0, 1.0]];
    product(p, r)
}

/// What a score has for its tilts alone.
pub(crate) fn tilt_penalty(tilts: [f64; 2]) -> f64 {
    0.25 * (tilts[0] * tilts[0] + tilts[1] * tilts[1])
}

impl Camera {
    fn damped(self) -> Self {
        // A NaN stays, and so does −0.
        let limited = |p: f64| p.clamp(-0.05, 0.05);
        Self { k: self.k, radial: [0.0; 3], tangential: self.tangential.map(limited) }
    }

    pub(crate) fn is_camera(&self) -> bool {
        let mut numbers = self.k.iter().chain(&self.radial).chain(&self.tangential);
        numbers.all(|number| number.is_finite()) && self.k[0] > 0.0 && self.k[1] > 0.0
    }

    fn distorted(&self, [x, y]: [f64; 2]) -> [f64; 2] {
        let ([k1, k2, k3], [p1, p2]) = (self.radial, self.tangential);
        let r2 = x * x + y * y;
        let r4 = r2 * r2;
        let r6 = r4 * r2;
        let radial = 1.0 + k1 * r2 + k2 * r4 + k3 * r6;
        let x_tangential = 2.0 * p1 * x * y + p2 * (r2 + 2.0 * x * x);
        let y_tangential = p1 * (r2 + 2.0 * y * y) + 2.0 * p2 * x * y;
        [x * radial + x_tangential, y * radial + y_tangential]
    }

    fn projected(&self, tilt: Matrix, ideal: [f64; 2]) -> [f64; 2] {
        let [x, y] = self.distorted(ideal);
        let [qx, qy, qz] = tilt.map(|row| row[0] * x + row[1] * y + row[2] * 1.0);
        let z = if qz > 1e-12 { qz } else { 1e-12 };
        let [fx, fy, cx, cy] = self.k;
        [fx * (qx / z) + cx, fy * (qy / z) + cy]
    }

    /// Those of the rows in front of the camera whose error is finite.
    fn errors(&self, tilt: Matrix, rows: Rows) -> Errors {
        let mut errors = Errors::default();
        for (row, &flag) in rows.numbers.chunks_exact(4).zip(rows.flags) {
            let [u, v] = self.projected(tilt, [row[0], row[1]]);
            let (dx, dy) = (u - row[2], v - row[3]);
            let error = (dx * dx + dy * dy).sqrt();
            if flag == 1 && error.is_finite() {
                errors.sum += error;
                errors.counted += 1;
            }
        }
        errors
    }

    /// What the mean of a solved camera rests on, damped as it is for its outcome.
    ///
    /// # Errors
    ///
    /// 13 or 27, as Answer refuses.
    pub fn count_errors(&self, tilts: [f64; 2], rows: Rows) -> Result<Errors, u8> {
        match refusal(tilts, rows) {
            Some(number) => Err(number),
            None => Ok(self.damped().errors(tilt_matrix(tilts), rows)),
        }
    }

    pub(crate) fn score(&self, mean: f64, tilts: [f64; 2], centre: [f64; 2]) -> f64 {
        let ([k1, k2, k3], [p1, p2]) = (self.radial, self.tangential);
        let radial = k1 * k1 + k2 * k2 + 0.25 * k3 * k3;
        let distortion = 0.25 * (radial + (p1 * p1 + p2 * p2));
        let tilt = tilt_penalty(tilts);
        // Weight 0, kept since it is NaN where the square overflows.
        let [dx, dy] = [0, 1].map(|i| (self.k[2 + i] - centre[i]) / self.k[i].max(1.0));
        mean + distortion + tilt + 0.0 * (dx * dx + dy * dy)
    }
}

/// The number with which a camera and its rows are refused, if they are.
fn refusal(tilts: [f64; 2], rows: Rows) -> Option<u8> {
    let points = rows.flags.len();
    if points > 1024 || rows.numbers.len() != 4 * points || rows.flags.iter().any(|&flag| flag > 1)
    {
        return Some(13);
    }
    let is_small = |tilt: f64| tilt.abs() <= 0.5;
    (!tilts.into_iter().all(is_small)).then_some(27)
}

impl Finding {
    /// The number with which Answer refuses this finding for a seed, if it does; 12 and 10 come before.
    pub(crate) fn refusal(&self, seed: Seed, rows: Rows) -> Option<u8> {
        match self {
            Self::Failed => None,
            Self::Solved(_) => refusal(seed.tilts, rows),
        }
    }

    /// The outcome of a finding that isn't refused.
    pub(crate) fn outcome(&self, seed: Seed, inputs: &Inputs, rows: Rows) -> Outcome {
        let Self::Solved(solved) = self else { return Outcome::Skipped(1) };
        let camera = solved.damped();
        if !camera.is_camera() {
            return Outcome::Skipped(2);
        }
        let errors = camera.errors(tilt_matrix(seed.tilts), rows);
        let mean = errors.mean();
        if !errors.are_enough(inputs.min_counted, rows.flags.len()) || !mean.is_finite() {
            return Outcome::Skipped(3);
        }
        let score = camera.score(mean, seed.tilts, inputs.centre);
        if score.is_nan() {
            return Outcome::Skipped(4);
        }
        Outcome::Scored(Scored { camera, mean, score })
    }
}
