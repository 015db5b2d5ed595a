//! Operations on lists of points: both point maps, normalizing, the line test, the design rows
//! and the observed centre.

use super::models::{SINGULAR_TILT, is_singular, read_intrinsics, read_iterations, read_tilt};
use vision_calibration_core::given_tilt::{self, GivenTilt};
use vision_calibration_core::linalg;
use vision_calibration_core::{
    BrownConrady5, CorrespondenceView, PlanarDataset, Pt2, Pt3, ScheimpflugParams, View,
};
use vision_calibration_linear::Error;
use vision_calibration_linear::scheimpflug_init::access as search;
use vision_geometry::{GeometryError, homography};
use words::{Reader, float_words};

/// The specification's limit of a list of points; the published functions have none.
const MOST_POINTS: usize = 400;

/// The refusals' numbers. 17 is the specification's own; the published functions refuse the others too.
const BAD_LENGTH: u64 = 17;
const NO_SPREAD: u64 = 19;
const SOURCE_NOT_FINITE: u64 = 20;
const DESTINATION_NOT_FINITE: u64 = 21;
const TOO_FEW: u64 = 22;
const COUNTS_DIFFER: u64 = 23;
const SOURCE_COLLINEAR: u64 = 24;
const DESTINATION_COLLINEAR: u64 = 25;
/// For two checks of the published function that can't fail after its line tests. Rows has no such
/// refusal: a case that gave it would be a difference.
const NOT_NORMALIZED: u64 = 26;

fn is_bad_length(list: &[f64]) -> bool {
    list.len() % 2 == 1 || list.len() > 2 * MOST_POINTS
}

fn points(list: &[f64]) -> Vec<Pt2> {
    list.chunks_exact(2).map(|pair| Pt2::new(pair[0], pair[1])).collect()
}

fn coordinates(points: &[Pt2]) -> Vec<f64> {
    points.iter().flat_map(|point| [point.x, point.y]).collect()
}

/// One view that sees these pixels; where its points lie in space doesn't matter.
fn dataset(pixels: Vec<Pt2>) -> PlanarDataset {
    let board = vec![Pt3::new(0.0, 0.0, 0.0); pixels.len()];
    let view = CorrespondenceView::new(board, pixels).expect("both lists are equally long");
    PlanarDataset { views: vec![View::without_meta(view)] }
}

/// Runs a published point map. It maps each point alone and refuses views of fewer than four, so
/// four points more are mapped, and left out of the answer.
fn mapped(
    list: &[f64],
    tilt: GivenTilt,
    map: impl FnOnce(&PlanarDataset, ScheimpflugParams) -> Result<PlanarDataset, Error>,
) -> Result<Vec<u64>, String> {
    if is_bad_length(list) {
        return Ok(vec![BAD_LENGTH]);
    }
    if is_singular(tilt) {
        return Ok(vec![SINGULAR_TILT]);
    }
    given_tilt::give(tilt);
    let mut pixels = points(list);
    pixels.extend([Pt2::new(0.0, 0.0); 4]);
    let after = map(&dataset(pixels), ScheimpflugParams::default())
        .map_err(|error| format!("an error without a number: {error}"))?;
    let mut output = vec![0];
    output.extend(float_words(&coordinates(&after.views[0].obs.points_2d)[..list.len()]));
    Ok(output)
}

pub fn untilt_points(input: &mut Reader) -> Result<Vec<u64>, String> {
    let intrinsics = read_intrinsics(input)?;
    let tilt = read_tilt(input)?;
    mapped(&input.list()?, tilt, |dataset, sensor| {
        search::untilt_dataset(dataset, &intrinsics, sensor)
    })
}

pub fn ideal_points(input: &mut Reader) -> Result<Vec<u64>, String> {
    let intrinsics = read_intrinsics(input)?;
    let [k1, k2, k3, p1, p2] = input.floats()?;
    let distortion = BrownConrady5 { k1, k2, k3, p1, p2, iters: read_iterations(input)? };
    let tilt = read_tilt(input)?;
    mapped(&input.list()?, tilt, |dataset, sensor| {
        search::ideal_dataset(dataset, &intrinsics, &distortion, sensor)
    })
}

pub fn normalize_points_2d(input: &mut Reader) -> Result<Vec<u64>, String> {
    let list = input.list()?;
    if is_bad_length(&list) {
        return Ok(vec![BAD_LENGTH]);
    }
    Ok(match linalg::normalize_points_2d(&points(&list)) {
        None => vec![NO_SPREAD],
        Some((normalized, t)) => {
            let mut output = vec![0];
            output.extend(float_words(&coordinates(&normalized)));
            output.extend(float_words(&[t[(0, 0)], t[(0, 2)], t[(1, 2)]]));
            output
        }
    })
}

/// A list of whole points, for the operations whose answer has no room for a refusal.
fn whole_points(input: &mut Reader) -> Result<Vec<Pt2>, String> {
    let list = input.list()?;
    if list.len() % 2 == 1 {
        return Err("the list has an odd length".to_owned());
    }
    Ok(points(&list))
}

pub fn points_are_collinear(input: &mut Reader) -> Result<Vec<u64>, String> {
    let points = whole_points(input)?;
    Ok(vec![u64::from(homography::access::points_are_collinear(&points))])
}

pub fn observed_pixel_center(input: &mut Reader) -> Result<Vec<u64>, String> {
    let center = search::observed_pixel_center(&dataset(whole_points(input)?));
    Ok(float_words(&[center.x, center.y]))
}

pub fn design_rows(input: &mut Reader) -> Result<Vec<u64>, String> {
    let (source, destination) = (input.list()?, input.list()?);
    if is_bad_length(&source) || is_bad_length(&destination) {
        return Ok(vec![BAD_LENGTH]);
    }
    match homography::dlt_homography(&points(&source), &points(&destination)) {
        Ok(rows) => {
            let mut output = vec![0];
            output.extend(float_words(rows.row_by_row()));
            Ok(output)
        }
        Err(error) => Ok(vec![row_refusal(&error)?]),
    }
}

/// The number of a refusal, by the published error and, where that has several causes, by what its
/// message names.
fn row_refusal(error: &GeometryError) -> Result<u64, String> {
    let causes: [(&str, u64); 5] = [
        ("source point has", SOURCE_NOT_FINITE),
        ("destination point has", DESTINATION_NOT_FINITE),
        ("source points are collinear", SOURCE_COLLINEAR),
        ("destination points are collinear", DESTINATION_COLLINEAR),
        ("for normalization", NOT_NORMALIZED),
    ];
    match error {
        GeometryError::InsufficientData { .. } => Ok(TOO_FEW),
        GeometryError::CountMismatch { .. } => Ok(COUNTS_DIFFER),
        GeometryError::InvalidInput { reason } | GeometryError::Degenerate { reason } => causes
            .iter()
            .find(|(cause, _)| reason.contains(cause))
            .map(|(_, number)| *number)
            .ok_or_else(|| format!("an error without a number: {reason}")),
        other => Err(format!("an error without a number: {other}")),
    }
}
