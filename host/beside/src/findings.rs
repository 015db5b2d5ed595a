//! What a host sends to Answer, good and bad, for both sides.

use jinnychair::{
    BrownConrady5, Finding, FxFyCxCy, PinholeCamera, Rows, ScheimpflugParams, geometry,
};
use random::Random;
use words::word;

/// A host's answer.
#[derive(Clone, Debug)]
pub enum Sent {
    /// No camera.
    Failed,
    /// A camera and its rows, which may have any shape.
    Solved {
        /// fx, fy, cx, cy, k1, k2, k3, p1, p2.
        camera: [f64; 9],
        /// Four numbers a row, or not.
        rows: Vec<f64>,
        /// One a row, or not.
        flags: Vec<u8>,
    },
}

impl Sent {
    /// For the library.
    pub fn finding(&self) -> Finding<'_> {
        match self {
            Self::Failed => Finding::Failed,
            Self::Solved { camera, rows, flags } => {
                let [fx, fy, cx, cy, k1, k2, k3, p1, p2] = *camera;
                Finding::Solved {
                    camera: PinholeCamera {
                        k: FxFyCxCy { fx, fy, cx, cy },
                        dist: BrownConrady5 { k1, k2, k3, p1, p2 },
                    },
                    rows: Rows { numbers: rows, flags },
                }
            }
        }
    }

    /// For the reference model.
    pub fn for_book(&self) -> (book::Finding, book::Rows<'_>) {
        match self {
            Self::Failed => (book::Finding::Failed, book::Rows { numbers: &[], flags: &[] }),
            Self::Solved { camera, rows, flags } => {
                let [fx, fy, cx, cy, k1, k2, k3, p1, p2] = *camera;
                let camera = book::Camera {
                    k: [fx, fy, cx, cy],
                    radial: [k1, k2, k3],
                    tangential: [p1, p2],
                };
                (book::Finding::Solved(camera), book::Rows { numbers: rows, flags })
            }
        }
    }

    /// What the mean of a solved camera rests on at these tilts, as the library and as the reference model count it: 0, the sum and the
    /// count, or a refusal's number.
    pub fn errors(&self, [tilt_x, tilt_y]: [f64; 2]) -> Option<[Vec<u64>; 2]> {
        let Finding::Solved { camera, rows } = self.finding() else { return None };
        let sensor = ScheimpflugParams { tilt_x, tilt_y };
        let library = match geometry::count_errors(camera, sensor, rows) {
            Ok(errors) => vec![0, word(errors.sum), errors.counted as u64],
            Err(error) => vec![error.number().into()],
        };
        let (book::Finding::Solved(camera), rows) = self.for_book() else { return None };
        let book = match camera.count_errors([tilt_x, tilt_y], rows) {
            Ok(errors) => vec![0, word(errors.sum), errors.counted as u64],
            Err(number) => vec![number.into()],
        };
        Some([library, book])
    }

    /// An answer to a seed: mostly a good one, with few rows. A host whose answers tie sends the same exact one most times.
    pub fn draw(seed: &[f64; 6], ties: bool, random: &mut Random) -> Self {
        if random.once_in(12) {
            return Self::Failed;
        }
        if ties && !random.once_in(6) {
            return Self::exact(random.pick(&[1.0, 1.0, 1.0, 2.0, 1.0, 0.0]));
        }
        let [fx, fy, cx, cy, tilt_x, tilt_y] = *seed;
        let mut camera = [fx, fy, cx, cy, 0.1, -0.2, 0.3, 0.0, 0.0];
        for number in &mut camera[..4] {
            *number += random.within(2.0);
        }
        camera[7] = random.pick(&[0.0, -0.0, 0.01, 0.05, 0.07, -0.3]);
        camera[8] = random.pick(&[0.0, -0.0, -0.002, -0.05, 0.3]);
        if random.once_in(10) {
            camera[random.below(9)] = random.pick(&ODD);
        }
        let (rows, flags) = rows(&camera, [tilt_x, tilt_y], random);
        Self::Solved { camera, rows, flags }
    }
}

impl Sent {
    /// The point that no tilt moves, and exact numbers: the row's error is 5, times the factor.
    fn exact(times: f64) -> Self {
        Self::Solved {
            camera: [512.0, 512.0, 256.0, 192.0, 0.0, 0.0, 0.0, 0.0, 0.0],
            rows: vec![0.0, 0.0, 256.0 + 3.0 * times, 192.0 - 4.0 * times],
            flags: vec![1],
        }
    }
}

const ODD: [f64; 9] =
    [f64::NAN, f64::INFINITY, f64::NEG_INFINITY, 0.0, -0.0, -800.0, 1e200, 1e-310, f64::MAX];

fn rows(camera: &[f64; 9], tilts: [f64; 2], random: &mut Random) -> (Vec<f64>, Vec<u8>) {
    let count = random.pick(&[0, 1, 1, 2, 3, 3, 4, 5]);
    let error = 40.0 * (tilts[0] - 0.03).abs() + 40.0 * (tilts[1] + 0.02).abs() + 0.25;
    let (mut rows, mut flags) = (Vec::new(), Vec::new());
    for _ in 0..count {
        let [x, y] = [random.within(0.5), random.within(0.4)];
        let mut row = [x, y, camera[0] * x + camera[2], camera[1] * y + camera[3]];
        row[2] += if random.once_in(2) { random.within(error) } else { 3.0 };
        if random.once_in(15) {
            row[random.below(4)] = random.pick(&ODD);
        }
        rows.extend(row);
        flags.push(u8::from(!random.once_in(5)));
    }
    // Shapes that 13 refuses.
    match random.below(60) {
        0 => rows.push(0.0),
        1 => flags.push(1),
        2 if !flags.is_empty() => flags[0] = random.pick(&[2, 255]),
        3 => (rows, flags) = (vec![0.5; 4 * 1025], vec![1; 1025]),
        4 => (rows, flags) = (vec![0.5; 4 * 1024], vec![1; 1024]),
        _ => {}
    }
    (rows, flags)
}
