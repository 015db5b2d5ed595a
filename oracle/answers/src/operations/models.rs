//! Intrinsics, the tilted sensor and the distortion model.

use nalgebra::Matrix3;
use vision_calibration_core::distortion::{self, BrownConrady5, DistortionModel};
use vision_calibration_core::distortion_as_published as published;
use vision_calibration_core::given_tilt::GivenTilt;
use vision_calibration_core::{FxFyCxCy, HomographySensor, IntrinsicsModel, Pt2, SensorModel};
use words::{Reader, float_words, word};

/// The number for a determinant that equals 0, where the published `compile` panics.
pub const SINGULAR_TILT: u64 = 15;

/// fx, fy, cx, cy.
pub fn read_intrinsics(input: &mut Reader) -> Result<FxFyCxCy<f64>, String> {
    let [fx, fy, cx, cy] = input.floats()?;
    Ok(FxFyCxCy { fx, fy, cx, cy })
}

/// Sine and cosine of tilt_x, then of tilt_y.
pub fn read_tilt(input: &mut Reader) -> Result<GivenTilt, String> {
    let [sin_x, cos_x, sin_y, cos_y] = input.floats()?;
    Ok(GivenTilt { sin_x, cos_x, sin_y, cos_y })
}

/// Whether `compile` would panic.
pub fn is_singular(tilt: GivenTilt) -> bool {
    HomographySensor::new(tilt.matrix()).is_none()
}

fn read_point(input: &mut Reader) -> Result<Pt2, String> {
    let [x, y] = input.floats()?;
    Ok(Pt2::new(x, y))
}

fn read_matrix(input: &mut Reader) -> Result<Matrix3<f64>, String> {
    let [a, b, c, d, e, f, g, h, i] = input.floats()?;
    Ok(Matrix3::new(a, b, c, d, e, f, g, h, i))
}

fn point_words(point: Pt2) -> Vec<u64> {
    float_words(&[point.x, point.y])
}

fn matrix_words(matrix: &Matrix3<f64>) -> Vec<u64> {
    let places = (0..3).flat_map(|row| (0..3).map(move |column| (row, column)));
    places.map(|place| word(matrix[place])).collect()
}

/// The machine's own root, which IEEE 754 fixes.
pub fn sqrt(input: &mut Reader) -> Result<Vec<u64>, String> {
    Ok(float_words(&[input.float()?.sqrt()]))
}

/// 27 is the specification's own. The search gets its sines and cosines from the same series.
fn series_answer(input: &mut Reader, answer: fn(f64) -> f64) -> Result<Vec<u64>, String> {
    let x = input.float()?;
    Ok(if series::is_beyond(x) { vec![series::BEYOND] } else { vec![0, word(answer(x))] })
}

pub fn sine(input: &mut Reader) -> Result<Vec<u64>, String> {
    series_answer(input, series::sine)
}

pub fn cosine(input: &mut Reader) -> Result<Vec<u64>, String> {
    series_answer(input, series::cosine)
}

pub fn pixel_to_sensor(input: &mut Reader) -> Result<Vec<u64>, String> {
    let intrinsics = read_intrinsics(input)?;
    Ok(point_words(intrinsics.pixel_to_sensor(&read_point(input)?)))
}

pub fn sensor_to_pixel(input: &mut Reader) -> Result<Vec<u64>, String> {
    let intrinsics = read_intrinsics(input)?;
    Ok(point_words(intrinsics.sensor_to_pixel(&read_point(input)?)))
}

pub fn tilt_projection_matrix(input: &mut Reader) -> Result<Vec<u64>, String> {
    Ok(matrix_words(&read_tilt(input)?.matrix()))
}

pub fn inverse(input: &mut Reader) -> Result<Vec<u64>, String> {
    let matrix = read_matrix(input)?;
    Ok(match HomographySensor::new(matrix) {
        None => vec![SINGULAR_TILT],
        Some(sensor) => {
            let mut output = vec![0, word(matrix.determinant())];
            output.extend(matrix_words(&sensor.h_inv));
            output
        }
    })
}

pub fn apply_homography(input: &mut Reader) -> Result<Vec<u64>, String> {
    let h = read_matrix(input)?;
    let sensor = HomographySensor { h, h_inv: h };
    Ok(point_words(sensor.normalized_to_sensor(&read_point(input)?)))
}

/// The matrix given is the inverse itself.
pub fn apply_homography_inverse(input: &mut Reader) -> Result<Vec<u64>, String> {
    let h_inv = read_matrix(input)?;
    let sensor = HomographySensor { h: h_inv, h_inv };
    Ok(point_words(sensor.sensor_to_normalized(&read_point(input)?)))
}

/// k1, k2, k3, p1, p2, as the specified variant and as the published one.
fn read_distortion(
    input: &mut Reader,
) -> Result<(BrownConrady5<f64>, published::BrownConrady5<f64>), String> {
    let [k1, k2, k3, p1, p2] = input.floats()?;
    Ok((
        BrownConrady5 { k1, k2, k3, p1, p2, iters: 0 },
        published::BrownConrady5 { k1, k2, k3, p1, p2, iters: 0 },
    ))
}

/// The number of iterations, which the published struct holds as u32.
pub fn read_iterations(input: &mut Reader) -> Result<u32, String> {
    let number = input.number()?;
    u32::try_from(number).map_err(|_| format!("{number} iterations are too many"))
}

pub fn distort(input: &mut Reader) -> Result<Vec<u64>, String> {
    let (model, _) = read_distortion(input)?;
    Ok(point_words(model.distort(&read_point(input)?)))
}

pub fn distort_as_published(input: &mut Reader) -> Result<Vec<u64>, String> {
    let (_, model) = read_distortion(input)?;
    let point = read_point(input)?;
    Ok(point_words(published::DistortionModel::distort(&model, &point)))
}

pub fn distort_with_jacobian(input: &mut Reader) -> Result<Vec<u64>, String> {
    let (model, _) = read_distortion(input)?;
    let [x, y] = input.floats()?;
    Ok(jacobian_words(distortion::access::distort_with_jacobian(&model, x, y)))
}

pub fn distort_with_jacobian_as_published(input: &mut Reader) -> Result<Vec<u64>, String> {
    let (_, model) = read_distortion(input)?;
    let [x, y] = input.floats()?;
    Ok(jacobian_words(published::access::distort_with_jacobian(&model, x, y)))
}

fn jacobian_words(
    ((x, y), [[xx, xy], [yx, yy]]): distortion::access::PointAndJacobian,
) -> Vec<u64> {
    float_words(&[x, y, xx, xy, yx, yy])
}

pub fn undistort(input: &mut Reader) -> Result<Vec<u64>, String> {
    let (mut model, _) = read_distortion(input)?;
    model.iters = read_iterations(input)?;
    Ok(point_words(model.undistort(&read_point(input)?)))
}

pub fn undistort_as_published(input: &mut Reader) -> Result<Vec<u64>, String> {
    let (_, mut model) = read_distortion(input)?;
    model.iters = read_iterations(input)?;
    let point = read_point(input)?;
    Ok(point_words(published::DistortionModel::undistort(&model, &point)))
}
