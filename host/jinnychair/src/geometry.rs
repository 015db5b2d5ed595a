//! The operations that a host needs besides the search: root, camera, tilt, distortion, lists of points, and the parts of a score.
//!
//! Where a list is written, it goes to the front of the destination, and the rest of the destination is unchanged; after a
//! refusal all of it is.

pub use crate::known_plate::known_plate;
use crate::{
    BrownConrady5, ConicError, CountError, FxFyCxCy, NormalizeError, PinholeCamera, PointMapError,
    Pt2, Rows, RowsError, ScheimpflugParams, TiltError, TiltTrig, TrigError, raw,
};
use raw::{coordinates, coordinates_mut};

/// Three rows of three numbers.
pub type Matrix3 = [[f64; 3]; 3];

/// The derivatives of a distorted point.
#[derive(Clone, Copy, Debug, PartialEq)]
#[repr(C)]
pub struct Jacobian {
    /// Of x by x.
    pub xx: f64,
    /// Of x by y.
    pub xy: f64,
    /// Of y by x.
    pub yx: f64,
    /// Of y by y.
    pub yy: f64,
}

/// A distorted point and its derivatives.
#[derive(Clone, Copy, Debug, PartialEq)]
#[repr(C)]
pub struct DistortedPoint {
    /// The point.
    pub point: Pt2,
    /// Its derivatives.
    pub jacobian: Jacobian,
}

/// A conic B ∝ K⁻ᵀ·K⁻¹, in the order of Zhang's equations.
#[derive(Clone, Copy, Debug, PartialEq)]
#[repr(C)]
pub struct Conic {
    /// Row 1, column 1.
    pub b11: f64,
    /// Row 1, column 2.
    pub b12: f64,
    /// Row 2, column 2.
    pub b22: f64,
    /// Row 1, column 3.
    pub b13: f64,
    /// Row 2, column 3.
    pub b23: f64,
    /// Row 3, column 3.
    pub b33: f64,
}

/// Hartley's normalisation: points are scaled, then shifted.
#[derive(Clone, Copy, Debug, PartialEq)]
pub struct Normalization {
    /// The scale along both axes.
    pub scale: f64,
    /// The shift along x, after scaling.
    pub offset_x: f64,
    /// The shift along y, after scaling.
    pub offset_y: f64,
}

/// The correctly rounded square root.
///
/// ```
/// assert_eq!(jinnychair::geometry::sqrt(2.0).to_bits(), 0x3ff6_a09e_667f_3bcd);
/// assert!(jinnychair::geometry::sqrt(-1.0).is_nan());
/// ```
#[inline]
#[must_use]
pub fn sqrt(x: f64) -> f64 {
    raw::jc_sqrt(x)
}

/// The sine of a number of at most 0.5 in size, by eight terms of its power series: the same bits on every machine.
///
/// ```
/// use jinnychair::{TrigError, geometry::{cosine, sine}};
/// assert_eq!(sine(0.005).map(f64::to_bits), Ok(0x3f74_7adb_b006_a987));
/// assert_eq!((sine(-0.0).map(f64::to_bits), cosine(-0.0)), (Ok(1 << 63), Ok(1.0)));
/// assert_eq!(sine(3.0), Err(TrigError::TiltTooLarge));
/// ```
///
/// # Errors
///
/// The number is NaN or beyond 0.5.
#[inline]
pub fn sine(x: f64) -> Result<f64, TrigError> {
    let reply = raw::jc_sine(x);
    TrigError::check(reply.number).map(|()| reply.value)
}

/// The cosine of a number of at most 0.5 in size, by a series of its own.
///
/// # Errors
///
/// The number is NaN or beyond 0.5.
#[inline]
pub fn cosine(x: f64) -> Result<f64, TrigError> {
    let reply = raw::jc_cosine(x);
    TrigError::check(reply.number).map(|()| reply.value)
}

impl FxFyCxCy {
    /// From a pixel to the sensor, in focal lengths.
    #[inline]
    #[must_use]
    pub fn pixel_to_sensor(self, pixel: Pt2) -> Pt2 {
        raw::jc_pixel_to_sensor(self, pixel)
    }

    /// From the sensor, in focal lengths, to a pixel.
    #[inline]
    #[must_use]
    pub fn sensor_to_pixel(self, sensor: Pt2) -> Pt2 {
        raw::jc_sensor_to_pixel(self, sensor)
    }
}

/// The homography of a tilted sensor, from the sine and cosine of each tilt.
///
/// ```
/// use jinnychair::{ScheimpflugParams, TiltTrig, geometry::tilt_projection_matrix};
/// let level = tilt_projection_matrix(TiltTrig::try_from(ScheimpflugParams::default())?);
/// assert_eq!(level, [[1.0, 0.0, 0.0], [0.0, 1.0, 0.0], [0.0, 0.0, 1.0]]);
/// # Ok::<(), jinnychair::TrigError>(())
/// ```
#[inline]
#[must_use]
pub fn tilt_projection_matrix(trig: TiltTrig) -> Matrix3 {
    raw::jc_tilt_projection_matrix(trig).into()
}

/// The determinant, expanded along the first row.
#[inline]
#[must_use]
pub fn determinant(m: Matrix3) -> f64 {
    raw::jc_determinant(m.into())
}

/// The inverse of a tilt's matrix.
///
/// # Errors
///
/// The determinant is 0.
pub fn inverse(m: Matrix3) -> Result<Matrix3, TiltError> {
    let reply = raw::jc_inverse(m.into());
    TiltError::check(reply.number).map(|()| reply.inverse.into())
}

/// A point under a homography; a depth that isn't above 1e-12 counts as 1e-12.
#[inline]
#[must_use]
pub fn apply_homography(h: Matrix3, p: Pt2) -> Pt2 {
    raw::jc_apply_homography(h.into(), p)
}

/// A point under the inverse of a homography; a depth whose magnitude isn't above 1e-12 counts as 1e-12.
#[inline]
#[must_use]
pub fn apply_homography_inverse(h_inv: Matrix3, p: Pt2) -> Pt2 {
    raw::jc_apply_homography_inverse(h_inv.into(), p)
}

impl BrownConrady5 {
    /// The distorted point.
    #[inline]
    #[must_use]
    pub fn distort(self, p: Pt2) -> Pt2 {
        raw::distort(self, p)
    }

    /// The distorted point and its derivatives.
    #[inline]
    #[must_use]
    pub fn distort_with_jacobian(self, p: Pt2) -> DistortedPoint {
        raw::jc_distort_with_jacobian(self, p)
    }

    /// The point that is distorted to this one, by Newton's method with at most 20 steps.
    #[inline]
    #[must_use]
    pub fn undistorted(self, p: Pt2) -> Pt2 {
        self.undistort(0, p)
    }

    /// The point that is distorted to this one, by Newton's method with at most `iters` steps; 0 means 20.
    ///
    /// With numbers that no lens has, all of them may be needed, so a call with `iters` near 2³² can take long.
    /// [`BrownConrady5::undistorted`] takes 20 at most.
    #[inline]
    #[must_use]
    pub fn undistort(self, iters: u32, p: Pt2) -> Pt2 {
        raw::jc_undistort(self, iters, p)
    }

    /// The distortion as it is scored: no radial part, the tangential one within ±0.05.
    #[inline]
    #[must_use]
    pub fn damped(self) -> Self {
        raw::jc_damp_seed_distortion(self)
    }

    /// The penalty on distortion.
    #[inline]
    #[must_use]
    pub fn complexity(self) -> f64 {
        raw::jc_distortion_complexity(self)
    }
}

/// The penalty on tilts.
#[inline]
#[must_use]
pub fn tilt_complexity(sensor: ScheimpflugParams) -> f64 {
    raw::jc_tilt_complexity(sensor)
}

/// The penalty on a centre that isn't the observed one; its weight is 0.
#[inline]
#[must_use]
pub fn principal_point_complexity(k: FxFyCxCy, center: Pt2) -> f64 {
    raw::jc_principal_point_complexity(k, center)
}

/// The mean error of the counted rows, in pixels, with the camera as given; infinity where none is counted.
#[must_use]
pub fn mean_reproj_error(camera: PinholeCamera, trig: TiltTrig, rows: Rows) -> f64 {
    raw::mean_reproj_error(camera, trig, rows)
}

/// What the mean error of an answer rests on.
#[derive(Clone, Copy, Debug, PartialEq)]
pub struct ErrorCount {
    /// The sum of the counted rows' errors, in pixels.
    pub sum: f64,
    /// How many rows are counted: those in front of the camera whose error is finite.
    pub counted: usize,
}

/// Sum and count of the errors of an answer's rows, as [`crate::Search::answer`] works them out: with the solved camera's
/// distortion damped, and the sines and cosines of the seed's tilts.
///
/// ```
/// use jinnychair::*;
/// let k = FxFyCxCy { fx: 1000.0, fy: 1000.0, cx: 640.0, cy: 480.0 };
/// let camera = PinholeCamera { k, dist: BrownConrady5::default() };
/// // Two rows with an error of 5, one of them behind the camera.
/// let rows = Rows { numbers: &[0.0, 0.0, 643.0, 484.0, 0.0, 0.0, 643.0, 484.0], flags: &[1, 0] };
/// let errors = geometry::count_errors(camera, ScheimpflugParams::default(), rows)?;
/// assert_eq!((errors.sum, errors.counted), (5.0, 1));
/// # Ok::<(), CountError>(())
/// ```
///
/// # Errors
///
/// An answer with these rows, to a seed with these tilts, would be refused for the same reason.
pub fn count_errors(
    solved: PinholeCamera,
    sensor: ScheimpflugParams,
    rows: Rows,
) -> Result<ErrorCount, CountError> {
    let reply = raw::count_errors(solved, sensor, rows);
    CountError::check(reply.number)?;
    Ok(ErrorCount { sum: reply.sum, counted: reply.counted })
}

/// The pixels that a sensor without tilt would show; at most 400.
///
/// # Errors
///
/// Nothing is written.
pub fn untilt_points(
    k: FxFyCxCy,
    trig: TiltTrig,
    points: &[Pt2],
    to: &mut [Pt2],
) -> Result<(), PointMapError> {
    PointMapError::check(raw::untilt_points(k, trig, coordinates(points), coordinates_mut(to)))
}

/// The pixels that a camera with neither tilt nor distortion would show. `iters` is that of
/// [`BrownConrady5::undistort`].
///
/// # Errors
///
/// Nothing is written.
pub fn ideal_points(
    camera: PinholeCamera,
    iters: u32,
    trig: TiltTrig,
    points: &[Pt2],
    to: &mut [Pt2],
) -> Result<(), PointMapError> {
    PointMapError::check(raw::ideal_points(
        camera,
        iters,
        trig,
        coordinates(points),
        coordinates_mut(to),
    ))
}

/// The points moved and scaled so that their centroid is the origin and their mean distance from it is √2.
///
/// # Errors
///
/// Nothing is written.
pub fn normalize_points_2d(
    points: &[Pt2],
    to: &mut [Pt2],
) -> Result<Normalization, NormalizeError> {
    let reply = raw::normalize_points_2d(coordinates(points), coordinates_mut(to));
    NormalizeError::check(reply.number)?;
    Ok(Normalization { scale: reply.t00, offset_x: reply.t02, offset_y: reply.t12 })
}

/// Whether all points lie on a line. The line goes through the first point and the next one that is farther than 1e-9 from it; a
/// point is off the line where its cross product with these two is above 1e-6 in size. Points all in one place lie on a line;
/// fewer than three points don't.
///
/// ```
/// use jinnychair::{Pt2, geometry::points_are_collinear};
/// let points = |last: f64| [Pt2 { x: 0.0, y: 0.0 }, Pt2 { x: 1.0, y: 1.0 }, Pt2 { x: 2.0, y: last }];
/// assert!(points_are_collinear(&points(2.0)));
/// assert!(!points_are_collinear(&points(3.0)));
/// ```
#[must_use]
pub fn points_are_collinear(points: &[Pt2]) -> bool {
    raw::points_are_collinear(coordinates(points)).collinear != 0
}

/// The rows of the homography's design matrix from source to destination points, both normalised: two rows of nine
/// numbers a point.
///
/// # Errors
///
/// Nothing is written.
pub fn design_rows(source: &[Pt2], destination: &[Pt2], to: &mut [f64]) -> Result<(), RowsError> {
    RowsError::check(raw::design_rows(coordinates(source), coordinates(destination), to))
}

/// The camera of a conic, by Zhang's closed form.
///
/// # Errors
///
/// No camera has this conic.
///
/// ```
/// use jinnychair::geometry::{Conic, conic_to_camera};
/// let b = Conic { b11: 1.0, b12: 0.0, b22: 1.0, b13: -3.0, b23: -1.0, b33: 14.0 };
/// let k = conic_to_camera(b)?;
/// assert_eq!((k.fx, k.fy, k.cx, k.cy), (2.0, 2.0, 3.0, 1.0));
/// # Ok::<(), jinnychair::ConicError>(())
/// ```
pub fn conic_to_camera(b: Conic) -> Result<FxFyCxCy, ConicError> {
    let reply = raw::jc_conic_to_camera(b);
    ConicError::check(reply.number).map(|()| reply.camera)
}

/// The centre of the pixels that are seen: half the greatest coordinates, or, where one is negative, the middle of their range.
#[must_use]
pub fn observed_pixel_center(pixels: &[Pt2]) -> Pt2 {
    raw::observed_pixel_center(coordinates(pixels)).center
}
