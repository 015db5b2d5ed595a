//! Stand-in for `nalgebra`: the few types that the compared functions use.
//!
//! nalgebra's source isn't published with the files, so the order of its sums can't be compared;
//! here they run as docs/SPECIFICATION.md, 3.5, says: from the first product, left to right, from the lowest index.

mod matrix;
mod pose;
mod real;
mod vector;

pub use matrix::{DMatrix, Matrix3, Matrix4, SMatrix};
pub use pose::Isometry3;
pub use real::RealField;
pub use vector::{Point2, Point3, Vector2, Vector3};
