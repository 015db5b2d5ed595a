//! A private function of the published homography module, for the oracle.

use super::Pt2;

pub fn points_are_collinear(points: &[Pt2]) -> bool {
    super::points_are_collinear(points)
}
