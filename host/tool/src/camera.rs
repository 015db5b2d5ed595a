//! A camera with tilts and a lens, and how what it sees moves with each of its numbers: the derivatives that least squares
//! needs.

use crate::elementary::sine_cosine;
use crate::linear::{Matrix3, add_scaled, cross, product};
use crate::pose::Pose;

/// What all views share: focal lengths in pixels, tilts in radians, k1, k2, p1 and p2 of Brown and Conrady's lens.
pub type Shared = [f64; 8];

/// The places of the lens's numbers among the shared ones.
pub const LENS: std::ops::Range<usize> = 4..8;

/// Beyond this a tilt is no camera's: its sensor would be seen from the edge.
const STEEPEST: f64 = 1.5;

/// A camera, ready to look.
pub struct Camera {
    focal: [f64; 2],
    centre: [f64; 2],
    radial: [f64; 3],
    tangential: [f64; 2],
    tilt: TiltMatrices,
}

/// The matrix of tilts, and its derivatives by both.
pub struct TiltMatrices {
    /// From the ideal sensor to the tilted one.
    pub matrix: Matrix3,
    /// By tilt x and by tilt y.
    pub derivatives: [Matrix3; 2],
}

impl TiltMatrices {
    /// Those of tilt x and tilt y.
    #[must_use]
    pub fn new([x, y]: [f64; 2]) -> Self {
        let ((sx, cx), (sy, cy)) = (sine_cosine(x), sine_cosine(y));
        let about_x = [[1.0, 0.0, 0.0], [0.0, cx, sx], [0.0, -sx, cx]];
        let about_y = [[cy, 0.0, -sy], [0.0, 1.0, 0.0], [sy, 0.0, cy]];
        let by_x = [[0.0, 0.0, 0.0], [0.0, -sx, cx], [0.0, -cx, -sx]];
        let by_y = [[-sy, 0.0, -cy], [0.0, 0.0, 0.0], [cy, 0.0, -sy]];
        let onto_sensor = |r: &Matrix3, one| {
            [[r[2][2], 0.0, -r[0][2]], [0.0, r[2][2], -r[1][2]], [0.0, 0.0, one]]
        };
        let turn = product(&about_y, &about_x);
        let derivative = |by: Matrix3| {
            let first = product(&onto_sensor(&by, 0.0), &turn);
            let second = product(&onto_sensor(&turn, 1.0), &by);
            std::array::from_fn(|i| std::array::from_fn(|j| first[i][j] + second[i][j]))
        };
        Self {
            matrix: product(&onto_sensor(&turn, 1.0), &turn),
            derivatives: [
                derivative(product(&about_y, &by_x)),
                derivative(product(&by_y, &about_x)),
            ],
        }
    }
}

/// A dot as a camera sees it.
pub struct Sight {
    turned: [f64; 3],
    ideal: [f64; 2],
    nearness: f64,
    bent: [f64; 2],
    /// How the bent point moves with the ideal one.
    bend: [[f64; 2]; 2],
    on_sensor: [f64; 2],
    far: f64,
}

/// A pixel's derivatives along one axis.
pub struct Slopes {
    axis: usize,
    by_bent: [f64; 2],
    by_place: [f64; 3],
}

impl Camera {
    /// Nothing where it is no camera.
    #[must_use]
    pub fn new(shared: &Shared, centre: [f64; 2], k3: f64) -> Option<Self> {
        let [fx, fy, tilt_x, tilt_y, k1, k2, p1, p2] = *shared;
        let is_camera = fx > 0.0 && fy > 0.0 && tilt_x.abs() < STEEPEST && tilt_y.abs() < STEEPEST;
        is_camera.then(|| Self {
            focal: [fx, fy],
            centre,
            radial: [k1, k2, k3],
            tangential: [p1, p2],
            tilt: TiltMatrices::new([tilt_x, tilt_y]),
        })
    }

    /// A dot at a place on the plate; nothing where it is behind the camera.
    #[must_use]
    pub fn see(&self, pose: &Pose, [a, b]: [f64; 2]) -> Option<Sight> {
        let turned = add_scaled(&pose.x_axis.map(|entry| a * entry), b, &pose.y_axis);
        let seen = add_scaled(&turned, 1.0, &pose.origin);
        let is_in_front = seen[2] > 0.0;
        if !is_in_front {
            return None;
        }
        let nearness = 1.0 / seen[2];
        let [x, y] = [seen[0] * nearness, seen[1] * nearness];
        let (xx, xy, yy) = (x * x, x * y, y * y);
        let r2 = xx + yy;
        let ([k1, k2, k3], [p1, p2]) = (self.radial, self.tangential);
        let radial = 1.0 + r2 * (k1 + r2 * (k2 + r2 * k3));
        let slope = 2.0 * k1 + r2 * (4.0 * k2 + r2 * 6.0 * k3);
        let across = slope * xy + 2.0 * p1 * x + 2.0 * p2 * y;
        let bent = [
            x * radial + 2.0 * p1 * xy + p2 * (r2 + 2.0 * xx),
            y * radial + p1 * (r2 + 2.0 * yy) + 2.0 * p2 * xy,
        ];
        let bend = [
            [radial + slope * xx + 2.0 * p1 * y + 6.0 * p2 * x, across],
            [across, radial + slope * yy + 6.0 * p1 * y + 2.0 * p2 * x],
        ];
        let put = under(&self.tilt.matrix, bent);
        let far = 1.0 / put[2];
        let on_sensor = [put[0] * far, put[1] * far];
        Some(Sight { turned, ideal: [x, y], nearness, bent, bend, on_sensor, far })
    }

    /// The pixel along an axis.
    #[must_use]
    pub fn pixel(&self, sight: &Sight, axis: usize) -> f64 {
        self.focal[axis] * sight.on_sensor[axis] + self.centre[axis]
    }

    /// How that pixel moves.
    #[must_use]
    pub fn slopes(&self, sight: &Sight, axis: usize) -> Slopes {
        let (scale, tilt) = (self.focal[axis] * sight.far, &self.tilt.matrix);
        let by_bent = [0, 1].map(|j| scale * (tilt[axis][j] - sight.on_sensor[axis] * tilt[2][j]));
        let by_ideal =
            [0, 1].map(|j| by_bent[0] * sight.bend[0][j] + by_bent[1] * sight.bend[1][j]);
        let [x, y] = sight.ideal;
        let by_depth = -(by_ideal[0] * x + by_ideal[1] * y);
        let by_place = [by_ideal[0], by_ideal[1], by_depth].map(|slope| slope * sight.nearness);
        Slopes { axis, by_bent, by_place }
    }

    /// By the six numbers of a pose: a turn about the plate's middle, then a shift.
    #[must_use]
    pub fn by_pose(&self, sight: &Sight, slopes: &Slopes) -> [f64; 6] {
        let ([a, b, c], [x, y, z]) = (cross(&sight.turned, &slopes.by_place), slopes.by_place);
        [a, b, c, x, y, z]
    }

    /// By the shared number of this place.
    #[must_use]
    pub fn by_shared(&self, sight: &Sight, slopes: &Slopes, which: usize) -> f64 {
        let ([x, y], by_bent, axis) = (sight.ideal, slopes.by_bent, slopes.axis);
        let r2 = x * x + y * y;
        let along = by_bent[0] * x + by_bent[1] * y;
        match which {
            0 | 1 if which == axis => sight.on_sensor[axis],
            0 | 1 => 0.0,
            2 | 3 => {
                let moved = under(&self.tilt.derivatives[which - 2], sight.bent);
                let scale = self.focal[axis] * sight.far;
                scale * (moved[axis] - sight.on_sensor[axis] * moved[2])
            }
            4 => along * r2,
            5 => along * r2 * r2,
            6 => by_bent[0] * 2.0 * x * y + by_bent[1] * (r2 + 2.0 * y * y),
            _ => by_bent[0] * (r2 + 2.0 * x * x) + by_bent[1] * 2.0 * x * y,
        }
    }
}

fn under(m: &Matrix3, [x, y]: [f64; 2]) -> [f64; 3] {
    m.map(|row| row[0] * x + row[1] * y + row[2])
}
