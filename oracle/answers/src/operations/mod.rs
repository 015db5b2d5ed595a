//! The operations: each reads its input words, calls the published function and writes the
//! answer. Refusals that the specification adds stand in these functions, marked as its own.

mod camera;
mod models;
mod points;
mod score;
pub mod search;
mod seeds;

use words::Reader;

/// Reads an operation's inputs and gives its output words, or says what is wrong with the input.
pub type Operation = fn(&mut Reader) -> Result<Vec<u64>, String>;

/// Every operation by its name. Those that end in `_as_published` use the published lines where
/// the specification gives others for the distortion, or another rule for the search.
pub const OPERATIONS: &[(&str, Operation)] = &[
    ("sqrt", models::sqrt),
    ("sine", models::sine),
    ("cosine", models::cosine),
    ("pixel_to_sensor", models::pixel_to_sensor),
    ("sensor_to_pixel", models::sensor_to_pixel),
    ("tilt_projection_matrix", models::tilt_projection_matrix),
    ("inverse", models::inverse),
    ("apply_homography", models::apply_homography),
    ("apply_homography_inverse", models::apply_homography_inverse),
    ("distort", models::distort),
    ("distort_as_published", models::distort_as_published),
    ("distort_with_jacobian", models::distort_with_jacobian),
    ("distort_with_jacobian_as_published", models::distort_with_jacobian_as_published),
    ("undistort", models::undistort),
    ("undistort_as_published", models::undistort_as_published),
    ("untilt_points", points::untilt_points),
    ("ideal_points", points::ideal_points),
    ("normalize_points_2d", points::normalize_points_2d),
    ("points_are_collinear", points::points_are_collinear),
    ("design_rows", points::design_rows),
    ("observed_pixel_center", points::observed_pixel_center),
    ("conic_to_camera", camera::conic_to_camera),
    ("damp_seed_distortion", score::damp_seed_distortion),
    ("distortion_complexity", score::distortion_complexity),
    ("tilt_complexity", score::tilt_complexity),
    ("principal_point_complexity", score::principal_point_complexity),
    ("mean_reproj_error", score::mean_reproj_error),
    ("seed_lists", seeds::seed_lists),
    ("local_seed_grid", seeds::local_seed_grid),
    ("search", search::search),
    ("search_as_published", search::search_as_published),
];

/// The output words of an operation.
///
/// # Errors
///
/// Says what is wrong with the operation's name or its input words.
pub fn answer(operation: &str, input: &[u64]) -> Result<Vec<u64>, String> {
    let (_, run) = OPERATIONS
        .iter()
        .find(|(name, _)| *name == operation)
        .ok_or_else(|| format!("there is no operation `{operation}`"))?;
    let mut reader = Reader::new(input);
    let output = run(&mut reader)?;
    reader.end()?;
    Ok(output)
}
