//! Damping, the penalties and the mean error of a candidate.

use super::models::{is_singular, read_intrinsics, read_tilt};
use vision_calibration_core::{BrownConrady5, Pt2, ScheimpflugParams, given_tilt};
use vision_calibration_linear::scheimpflug_init::access as search;
use vision_calibration_linear::script::{Row, dataset_of_rows, identity_poses, pinhole_camera};
use words::{Reader, float_words, word};

fn read_distortion(input: &mut Reader) -> Result<BrownConrady5<f64>, String> {
    let [k1, k2, k3, p1, p2] = input.floats()?;
    Ok(BrownConrady5 { k1, k2, k3, p1, p2, iters: 0 })
}

/// A count, then x, y, u, v and the flag of each row.
pub fn read_rows(input: &mut Reader) -> Result<Vec<Row>, String> {
    (0..input.count()?)
        .map(|_| {
            let [x, y, u, v] = input.floats()?;
            Ok(Row { ideal: [x, y], seen: [u, v], in_front: input.flag()? })
        })
        .collect()
}

pub fn damp_seed_distortion(input: &mut Reader) -> Result<Vec<u64>, String> {
    let d = search::damp_seed_distortion(read_distortion(input)?);
    Ok(float_words(&[d.k1, d.k2, d.k3, d.p1, d.p2]))
}

pub fn distortion_complexity(input: &mut Reader) -> Result<Vec<u64>, String> {
    Ok(vec![word(search::distortion_complexity(&read_distortion(input)?))])
}

pub fn tilt_complexity(input: &mut Reader) -> Result<Vec<u64>, String> {
    let [tilt_x, tilt_y] = input.floats()?;
    Ok(vec![word(search::tilt_complexity(ScheimpflugParams { tilt_x, tilt_y }))])
}

pub fn principal_point_complexity(input: &mut Reader) -> Result<Vec<u64>, String> {
    let intrinsics = read_intrinsics(input)?;
    let [x, y] = input.floats()?;
    Ok(vec![word(search::principal_point_complexity(&intrinsics, Pt2::new(x, y)))])
}

/// The camera is used as it is given; a singular tilt has no answer, since it is refused before.
pub fn mean_reproj_error(input: &mut Reader) -> Result<Vec<u64>, String> {
    let camera = pinhole_camera(input.floats()?);
    let tilt = read_tilt(input)?;
    let rows = dataset_of_rows(&read_rows(input)?);
    if is_singular(tilt) {
        return Err("the tilt is singular".to_owned());
    }
    given_tilt::give(tilt);
    let sensor = ScheimpflugParams::default();
    let mean = search::mean_reproj_error(&rows, &camera, sensor, &identity_poses());
    Ok(vec![word(mean)])
}
