//! The specification's formulas in plain C with the machine's root (`plain.c`, `leaves.c`), safe to call. A reply of a whole number is the refusal's, or 0.

use jinnychair::geometry::{Conic, DistortedPoint, Matrix3};
use jinnychair::{BrownConrady5, FxFyCxCy, Pt2, TiltTrig};
use std::ptr;

/// A sine or cosine, where it isn't refused.
#[derive(Clone, Copy, Debug)]
#[repr(C)]
pub struct Sum {
    pub number: i32,
    pub value: f64,
}

unsafe extern "C" {
    pub safe fn leaf_root(x: f64) -> f64;
    pub safe fn leaf_sine(x: f64) -> Sum;
    pub safe fn leaf_cosine(x: f64) -> Sum;
    pub safe fn leaf_pixel_to_sensor(k: &FxFyCxCy, p: Pt2) -> Pt2;
    pub safe fn leaf_sensor_to_pixel(k: &FxFyCxCy, p: Pt2) -> Pt2;
    pub safe fn leaf_tilt_matrix(trig: &TiltTrig, to: &mut Matrix3);
    pub safe fn leaf_determinant(m: &Matrix3) -> f64;
    pub safe fn leaf_inverse(m: &Matrix3, to: &mut Matrix3) -> i32;
    pub safe fn leaf_apply_homography(m: &Matrix3, p: Pt2) -> Pt2;
    pub safe fn leaf_apply_homography_inverse(m: &Matrix3, p: Pt2) -> Pt2;
    pub safe fn leaf_distort(d: &BrownConrady5, p: Pt2) -> Pt2;
    pub safe fn leaf_distort_with_jacobian(d: &BrownConrady5, p: Pt2) -> DistortedPoint;
    pub safe fn leaf_undistort(d: &BrownConrady5, iters: u32, p: Pt2) -> Pt2;
    pub safe fn leaf_conic_to_camera(b: &Conic, to: &mut FxFyCxCy) -> i32;
    pub safe fn leaf_damp(d: &BrownConrady5) -> BrownConrady5;
    pub safe fn leaf_distortion_penalty(d: &BrownConrady5) -> f64;
    pub safe fn leaf_tilt_penalty(x: f64, y: f64) -> f64;
    pub safe fn leaf_centre_penalty(k: &FxFyCxCy, centre: Pt2) -> f64;
    pub safe fn leaf_has_plate(k: &FxFyCxCy) -> i32;
}

/// A matrix, as it is passed by value.
#[derive(Clone, Copy, Debug)]
#[repr(C)]
pub struct Matrix(pub Matrix3);

/// An inverse, where there is one.
#[derive(Clone, Copy, Debug)]
#[repr(C)]
pub struct InverseReply {
    pub number: i32,
    pub inverse: Matrix,
}

/// A camera, where there is one.
#[derive(Clone, Copy, Debug)]
#[repr(C)]
pub struct CameraReply {
    pub number: i32,
    pub camera: FxFyCxCy,
}

// With structs by value, as the library's interface has them.
unsafe extern "C" {
    pub safe fn value_tilt_matrix(trig: TiltTrig) -> Matrix;
    pub safe fn value_inverse(m: Matrix) -> InverseReply;
    pub safe fn value_determinant(m: Matrix) -> f64;
    pub safe fn value_pixel_to_sensor(k: FxFyCxCy, p: Pt2) -> Pt2;
    pub safe fn value_sensor_to_pixel(k: FxFyCxCy, p: Pt2) -> Pt2;
    pub safe fn value_distort_with_jacobian(d: BrownConrady5, p: Pt2) -> DistortedPoint;
    pub safe fn value_conic_to_camera(b: Conic) -> CameraReply;
    pub safe fn value_damp(d: BrownConrady5) -> BrownConrady5;
    pub safe fn value_distortion_penalty(d: BrownConrady5) -> f64;
    pub safe fn value_centre_penalty(k: FxFyCxCy, centre: Pt2) -> f64;
}

/// The mean error of the rows; the camera is fx, fy, cx, cy, k1, k2, k3, p1, p2.
pub fn plain_c(camera: &[f64; 9], trig: &TiltTrig, numbers: &[f64], flags: &[u8]) -> f64 {
    unsafe extern "C" {
        fn plain_mean_error(
            camera: *const f64,
            trig: *const TiltTrig,
            rows: *const f64,
            flags: *const u8,
            count: usize,
        ) -> f64;
    }
    assert_eq!(numbers.len(), 4 * flags.len());
    // SAFETY: nine numbers, four numbers, and four numbers and a flag for each of `count` rows are read.
    unsafe {
        plain_mean_error(camera.as_ptr(), trig, numbers.as_ptr(), flags.as_ptr(), flags.len())
    }
}

/// Each pixel without tilt and, where a lens is given, without its distortion.
pub fn leaf_map_points(
    k: &FxFyCxCy,
    lens: Option<(&BrownConrady5, u32)>,
    trig: &TiltTrig,
    points: &[Pt2],
    to: &mut [Pt2],
) -> i32 {
    unsafe extern "C" {
        fn leaf_map_points(
            k: *const FxFyCxCy,
            d: *const BrownConrady5,
            iters: u32,
            trig: *const TiltTrig,
            points: *const Pt2,
            count: usize,
            to: *mut Pt2,
        ) -> i32;
    }
    assert!(points.len() <= to.len());
    let (d, iters) = lens.map_or((ptr::null(), 0), |(d, iters)| (ptr::from_ref(d), iters));
    // SAFETY: the structs are read, unless one is null, and `count` points; as many are written.
    unsafe { leaf_map_points(k, d, iters, trig, points.as_ptr(), points.len(), to.as_mut_ptr()) }
}

/// The moved points, and the scale and the two offsets.
pub fn leaf_normalize(points: &[Pt2], to: &mut [Pt2], three: &mut [f64; 3]) -> i32 {
    unsafe extern "C" {
        fn leaf_normalize(
            points: *const Pt2,
            count: usize,
            to: *mut Pt2,
            three: *mut [f64; 3],
        ) -> i32;
    }
    assert!(points.len() <= to.len());
    // SAFETY: `count` points are read and as many written, and three numbers.
    unsafe { leaf_normalize(points.as_ptr(), points.len(), to.as_mut_ptr(), three) }
}

/// Whether the points lie on a line.
pub fn leaf_collinear(points: &[Pt2]) -> bool {
    unsafe extern "C" {
        fn leaf_collinear(points: *const Pt2, count: usize) -> i32;
    }
    // SAFETY: `count` points are read.
    unsafe { leaf_collinear(points.as_ptr(), points.len()) != 0 }
}

/// Eighteen numbers for each point.
pub fn leaf_design_rows(from: &[Pt2], onto: &[Pt2], to: &mut [f64]) -> i32 {
    unsafe extern "C" {
        fn leaf_design_rows(
            from: *const Pt2,
            count: usize,
            onto: *const Pt2,
            others: usize,
            to: *mut f64,
        ) -> i32;
    }
    assert!(18 * from.len() <= to.len());
    // SAFETY: `count` and `others` points are read, and 18 numbers for each of `count` written.
    unsafe {
        leaf_design_rows(from.as_ptr(), from.len(), onto.as_ptr(), onto.len(), to.as_mut_ptr())
    }
}

/// The centre of the seen pixels.
pub fn leaf_centre(points: &[Pt2]) -> Pt2 {
    unsafe extern "C" {
        fn leaf_centre(points: *const Pt2, count: usize) -> Pt2;
    }
    // SAFETY: `count` points are read.
    unsafe { leaf_centre(points.as_ptr(), points.len()) }
}
