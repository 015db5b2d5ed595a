//! A camera with a lens and a tilted sensor, as OpenCV's documentation of `calib3d` writes it: distortion of the ideal
//! point, the tilt, the pixel.

use crate::dual::Number;
use std::array::from_fn;

/// What all views share: fx, fy, tilt x, tilt y (radians), k1, k2, p1, p2.
pub type Shared<T> = [T; 8];

/// Where a plate stands: its turn, by rows, and its place.
#[derive(Clone, Copy, Debug, PartialEq)]
pub struct Pose<T> {
    /// A rotation, by rows.
    pub turn: [[T; 3]; 3],
    /// Where the plate's origin is, seen from the camera.
    pub place: [T; 3],
}

/// The product of two matrices.
pub fn product<T: Number>(a: &[[T; 3]; 3], b: &[[T; 3]; 3]) -> [[T; 3]; 3] {
    from_fn(|i| from_fn(|j| a[i][0] * b[0][j] + a[i][1] * b[1][j] + a[i][2] * b[2][j]))
}

fn apply<T: Number>(matrix: &[[T; 3]; 3], vector: [T; 3]) -> [T; 3] {
    from_fn(|i| matrix[i][0] * vector[0] + matrix[i][1] * vector[1] + matrix[i][2] * vector[2])
}

/// The tilted sensor: R = Ry(tilt y)·Rx(tilt x), then a central projection onto it along its own axis,
/// [[r33, 0, −r13], [0, r33, −r23], [0, 0, 1]]·R.
pub fn tilted<T: Number>(tilt_x: T, tilt_y: T) -> [[T; 3]; 3] {
    let (zero, one) = (T::constant(0.0), T::constant(1.0));
    let ((sx, cx), (sy, cy)) = (tilt_x.sin_cos(), tilt_y.sin_cos());
    let about_x = [[one, zero, zero], [zero, cx, sx], [zero, -sx, cx]];
    let about_y = [[cy, zero, -sy], [zero, one, zero], [sy, zero, cy]];
    let turn = product(&about_y, &about_x);
    let project =
        [[turn[2][2], zero, -turn[0][2]], [zero, turn[2][2], -turn[1][2]], [zero, zero, one]];
    product(&project, &turn)
}

/// Radial and tangential distortion of an ideal point.
fn bent<T: Number>([x, y]: [T; 2], [k1, k2, p1, p2]: [T; 4]) -> [T; 2] {
    let (one, two) = (T::constant(1.0), T::constant(2.0));
    let square = x * x + y * y;
    let radial = one + square * (k1 + square * k2);
    [
        x * radial + two * p1 * x * y + p2 * (square + two * x * x),
        y * radial + p1 * (square + two * y * y) + two * p2 * x * y,
    ]
}

/// A camera: what all views share, with the tilt's matrix worked out.
#[derive(Clone, Copy, Debug)]
pub struct Camera<T> {
    focal: [T; 2],
    tilt: [[T; 3]; 3],
    lens: [T; 4],
    centre: [T; 2],
}

impl<T: Number> Camera<T> {
    /// A camera with this optical centre, in pixels.
    pub fn new(shared: &Shared<T>, centre: [f64; 2]) -> Self {
        let [fx, fy, tilt_x, tilt_y, k1, k2, p1, p2] = *shared;
        Self {
            focal: [fx, fy],
            tilt: tilted(tilt_x, tilt_y),
            lens: [k1, k2, p1, p2],
            centre: centre.map(T::constant),
        }
    }

    /// The pixel of a place on the plate.
    pub fn pixel(&self, pose: &Pose<T>, place: [f64; 2]) -> [T; 2] {
        let [a, b] = place.map(T::constant);
        let seen: [T; 3] = from_fn(|i| pose.turn[i][0] * a + pose.turn[i][1] * b + pose.place[i]);
        let depth = seen[2].inverse();
        let [x, y] = bent([seen[0] * depth, seen[1] * depth], self.lens);
        let [u, v, w] = apply(&self.tilt, [x, y, T::constant(1.0)]);
        let scale = w.inverse();
        [self.focal[0] * u * scale + self.centre[0], self.focal[1] * v * scale + self.centre[1]]
    }
}

/// The rotation by a vector (Rodrigues' formula).
#[must_use]
pub fn rotation(by: [f64; 3]) -> [[f64; 3]; 3] {
    let [x, y, z] = by;
    let square = x * x + y * y + z * z;
    let angle = square.sqrt();
    // sin θ/θ and (1 − cos θ)/θ².
    let (first, second) = if angle < 1e-4 {
        (1.0 - square / 6.0, 0.5 - square / 24.0)
    } else {
        (angle.sin() / angle, 2.0 * (0.5 * angle).sin().powi(2) / square)
    };
    let cross = [[0.0, -z, y], [z, 0.0, -x], [-y, x, 0.0]];
    let twice = product(&cross, &cross);
    from_fn(|i| {
        from_fn(|j| f64::from(u8::from(i == j)) + first * cross[i][j] + second * twice[i][j])
    })
}

#[cfg(test)]
mod tests {
    use super::*;

    /// OpenCV 4.6: `cv2.projectPoints([[0.3, -0.2, 0]], rvec=(0.3, -0.2, 0.5), tvec=(0.1, 0.05, 3), K, D)` with fx = 1420,
    /// fy = 1415, cx = 655, cy = 470, D = (0.1, -0.05, 0.002, -0.003, 0, 0, 0, 0, 0, 0, 0, 0, -0.02, 0.05).
    #[test]
    fn a_pixel_is_open_cvs() {
        let shared = [1420.0, 1415.0, -0.02, 0.05, 0.1, -0.05, 0.002, -0.003];
        let pose = Pose { turn: rotation([0.3, -0.2, 0.5]), place: [0.1, 0.05, 3.0] };
        let found = Camera::new(&shared, [655.0, 470.0]).pixel(&pose, [0.3, -0.2]);
        let expected = [868.1136398231654, 477.18782868811445];
        for i in 0..2 {
            assert!((found[i] - expected[i]).abs() < 1e-9, "{found:?}");
        }
    }

    #[test]
    fn a_small_rotation_is_the_series() {
        let small = rotation([1e-5, 0.0, 0.0]);
        let large = rotation([2e-4, 0.0, 0.0]);
        assert!((small[2][1] - 1e-5f64.sin()).abs() < 1e-18);
        assert!((large[2][1] - 2e-4f64.sin()).abs() < 1e-18);
        assert!((large[1][1] - 2e-4f64.cos()).abs() < 1e-16);
    }
}
