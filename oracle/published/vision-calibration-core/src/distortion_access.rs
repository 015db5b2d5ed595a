//! A private function of the published distortion models, for the oracle. Compiled once below
//! each of the two variants.

use super::BrownConrady5;

/// A distorted point and the four derivatives, row by row.
pub type PointAndJacobian = ((f64, f64), [[f64; 2]; 2]);

pub fn distort_with_jacobian(model: &BrownConrady5<f64>, x: f64, y: f64) -> PointAndJacobian {
    model.distort_with_jacobian(x, y)
}
