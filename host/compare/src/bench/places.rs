//! Where the linker has put code.

use super::scoring;
use crate::calls;
use crate::plain::leaf_determinant;
use vision_calibration_linear::scheimpflug_init::access::mean_reproj_error;

unsafe extern "C" {
    fn jc_start();
    fn jc_answer();
    fn jc_normalize_points_2d();
}

/// The places, within 64 bytes, of functions of the library, of the Rust, of C, and of the table.
pub fn of_code() -> [usize; 7] {
    let code = [
        jc_start as *const (),
        jc_answer as *const (),
        jc_normalize_points_2d as *const (),
        calls::next as *const (),
        mean_reproj_error as *const (),
        leaf_determinant as *const (),
        scoring::scorings as *const (),
    ];
    code.map(|place| place.addr() % 64)
}
