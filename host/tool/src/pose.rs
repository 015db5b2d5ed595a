//! Where the plate stood in front of the camera, from the homography of a view.

use crate::linear::{Matrix3, add_scaled, column, cross, dot, unit};
use jinnychair::FxFyCxCy;

/// The plate's axes and origin, seen from the camera.
#[derive(Clone, Copy, Debug, PartialEq)]
pub struct Pose {
    /// The direction of the plate's x axis.
    pub x_axis: [f64; 3],
    /// The direction of the plate's y axis.
    pub y_axis: [f64; 3],
    /// The plate's origin.
    pub origin: [f64; 3],
}

impl Pose {
    /// From a homography to the pixels of a camera without tilt: H ∝ K·[x axis, y axis, origin].
    pub fn from_homography(k: &FxFyCxCy, h: &Matrix3) -> Option<Self> {
        let [a, b, t] = [0, 1, 2].map(|j| {
            let [u, v, w] = column(h, j);
            [(u - k.cx * w) / k.fx, (v - k.cy * w) / k.fy, w]
        });
        // The plate is in front of the camera, which settles the sign.
        let scale = t[2].signum() * 2.0 / (dot(&a, &a).sqrt() + dot(&b, &b).sqrt());
        let [a, b, origin] = [a, b, t].map(|v| v.map(|entry| scale * entry));
        // The two axes are turned apart, each by the same angle, until they are orthogonal.
        let (a, b) = (unit(&a), unit(&b));
        let along = unit(&add_scaled(&a, 1.0, &b));
        let across = unit(&add_scaled(&a, -1.0, &b));
        let half = std::f64::consts::FRAC_1_SQRT_2;
        let pose = Self {
            x_axis: add_scaled(&across, 1.0, &along).map(|entry| half * entry),
            y_axis: add_scaled(&along, -1.0, &across).map(|entry| half * entry),
            origin,
        };
        pose.is_finite().then_some(pose)
    }

    fn is_finite(&self) -> bool {
        [self.x_axis, self.y_axis, self.origin].as_flattened().iter().all(|entry| entry.is_finite())
    }

    /// The direction in which the plate faces: its x axis × its y axis.
    pub fn normal(&self) -> [f64; 3] {
        cross(&self.x_axis, &self.y_axis)
    }

    /// Where a place on the plate is, seen from the camera.
    pub fn place(&self, x: f64, y: f64) -> [f64; 3] {
        add_scaled(&add_scaled(&self.origin, x, &self.x_axis), y, &self.y_axis)
    }

    /// The pose turned about its origin by the rotation whose quaternion is 1, `by`/2, scaled to length 1: Cayley's form,
    /// without sine or cosine. For a small `by` it is the rotation vector.
    #[must_use]
    pub fn turned(&self, by: [f64; 3]) -> Self {
        let half = by.map(|entry| 0.5 * entry);
        let scale = 2.0 / (1.0 + dot(&half, &half));
        let turn = |v: &[f64; 3]| {
            let once = cross(&half, v);
            let both = add_scaled(&once, 1.0, &cross(&half, &once));
            add_scaled(v, scale, &both)
        };
        Self { x_axis: turn(&self.x_axis), y_axis: turn(&self.y_axis), origin: self.origin }
    }

    /// The pose with its origin elsewhere.
    #[must_use]
    pub fn shifted(&self, by: [f64; 3]) -> Self {
        Self { origin: add_scaled(&self.origin, 1.0, &by), ..*self }
    }
}
