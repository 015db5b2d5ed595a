//! Sine and cosine of the two tilts, given as numbers: 01 takes them instead of the angles.
//!
//! The published `compile` knows only the angles, so the numbers that belong to them are left
//! here before it is called.

use crate::Mat3;
use crate::sensor::tilt_projection_matrix;
use std::cell::Cell;

#[derive(Clone, Copy, Debug, PartialEq)]
pub struct GivenTilt {
    pub sin_x: f64,
    pub cos_x: f64,
    pub sin_y: f64,
    pub cos_y: f64,
}

impl GivenTilt {
    /// No tilt.
    pub const NONE: Self = Self { sin_x: 0.0, cos_x: 1.0, sin_y: 0.0, cos_y: 1.0 };

    /// The published tilt matrix of these numbers.
    pub fn matrix(self) -> Mat3 {
        tilt_projection_matrix(self.sin_x, self.cos_x, self.sin_y, self.cos_y)
    }
}

thread_local! {
    static CURRENT: Cell<GivenTilt> = const { Cell::new(GivenTilt::NONE) };
}

/// Leaves the numbers for the next calls of `compile`.
pub fn give(tilt: GivenTilt) {
    CURRENT.set(tilt);
}

/// The numbers that were given last.
pub fn current() -> GivenTilt {
    CURRENT.get()
}
