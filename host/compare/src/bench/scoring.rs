//! A camera's rows: projected, and their errors taken together.

use super::Bench;
use super::operation::{called, returned};
use super::series::{cosine_in_rust, sine_in_rust};
use crate::plain::{leaf_cosine, leaf_damp, leaf_sine, plain_c};
use jinnychair::{
    BrownConrady5, FxFyCxCy, PinholeCamera, Rows, ScheimpflugParams, TiltTrig, geometry,
};
use random::Random;
use vision_calibration_core::ScheimpflugParams as PublishedTilts;
use vision_calibration_core::given_tilt::{self, GivenTilt};
use vision_calibration_core::{Iso3, PinholeCamera as PublishedCamera, PlanarDataset};
use vision_calibration_linear::scheimpflug_init::access as published;
use vision_calibration_linear::script::{Row, dataset_of_rows, identity_poses, pinhole_camera};

/// How many rows the largest answer has.
pub const ROWS: usize = 900;

/// fx, fy, cx, cy, k1, k2, k3, p1, p2.
pub const CAMERA: [f64; 9] = [800.0, 790.0, 320.5, 239.25, 0.0, 0.0, 0.0, 0.01, -0.02];
const TILTS: ScheimpflugParams = ScheimpflugParams { tilt_x: 0.05, tilt_y: -0.02 };

pub fn row_list(count: usize, random: &mut Random) -> Vec<Row> {
    let row = |_| {
        let ideal = [random.within(0.4), random.within(0.3)];
        let seen = [800.0 * ideal[0] + 320.5 + random.within(1.0), 790.0 * ideal[1] + 239.25];
        Row { ideal, seen, in_front: true }
    };
    (0..count).map(row).collect()
}

/// The same rows as the library and C take them.
pub fn flat(rows: &[Row]) -> (Vec<f64>, Vec<u8>) {
    let numbers = rows.iter().flat_map(|row| [row.ideal, row.seen].concat()).collect();
    (numbers, rows.iter().map(|row| u8::from(row.in_front)).collect())
}

pub fn library_camera() -> PinholeCamera {
    let [fx, fy, cx, cy, k1, k2, k3, p1, p2] = CAMERA;
    PinholeCamera { k: FxFyCxCy { fx, fy, cx, cy }, dist: BrownConrady5 { k1, k2, k3, p1, p2 } }
}

pub fn given(trig: TiltTrig) -> GivenTilt {
    GivenTilt { sin_x: trig.sin_x, cos_x: trig.cos_x, sin_y: trig.sin_y, cos_y: trig.cos_y }
}

fn published_mean(
    rows: &PlanarDataset,
    camera: &PublishedCamera,
    trig: GivenTilt,
    poses: &[Iso3],
) -> f64 {
    given_tilt::give(trig);
    published::mean_reproj_error(rows, camera, PublishedTilts::default(), poses)
}

fn scoring(bench: &mut Bench, name: &str, rows: &[Row]) {
    let (flat, datasets) = ([flat(rows)], [dataset_of_rows(rows)]);
    let (trig, poses) = (TiltTrig::try_from(TILTS).expect("small tilts"), identity_poses());
    let (camera, published_camera) = (library_camera(), pinhole_camera(CAMERA));
    let sides = [
        returned(&flat, |(numbers, flags)| {
            geometry::mean_reproj_error(camera, trig, Rows { numbers, flags })
        }),
        called(&datasets, |rows| published_mean(rows, &published_camera, given(trig), &poses)),
        returned(&flat, |(numbers, flags)| plain_c(&CAMERA, &trig, numbers, flags)),
    ];
    bench.row(name, sides);
}

/// An answer's errors, with the camera damped and the tilts' own sines and cosines; of sum and count the mean is compared.
fn counted(bench: &mut Bench, name: &str, rows: &[Row]) {
    let (flat, datasets) = ([flat(rows)], [dataset_of_rows(rows)]);
    let (camera, published_camera) = (library_camera(), pinhole_camera(CAMERA));
    let poses = identity_poses();
    let ScheimpflugParams { tilt_x, tilt_y } = TILTS;
    let library = |(numbers, flags): &(Vec<f64>, Vec<u8>)| {
        let errors = geometry::count_errors(camera, TILTS, Rows { numbers, flags });
        errors.map(|errors| errors.sum / errors.counted as f64)
    };
    let rust = |rows: &PlanarDataset| {
        let mut damped = published_camera.clone();
        damped.dist = published::damp_seed_distortion(damped.dist);
        let [sin_x, sin_y] = [sine_in_rust(tilt_x)?, sine_in_rust(tilt_y)?];
        let [cos_x, cos_y] = [cosine_in_rust(tilt_x)?, cosine_in_rust(tilt_y)?];
        Some(published_mean(rows, &damped, GivenTilt { sin_x, cos_x, sin_y, cos_y }, &poses))
    };
    let c = |(numbers, flags): &(Vec<f64>, Vec<u8>)| {
        let mut damped = CAMERA;
        let BrownConrady5 { k1, k2, k3, p1, p2 } = leaf_damp(&camera.dist);
        damped[4..].copy_from_slice(&[k1, k2, k3, p1, p2]);
        let [sin_x, cos_x] = [leaf_sine(tilt_x).value, leaf_cosine(tilt_x).value];
        let [sin_y, cos_y] = [leaf_sine(tilt_y).value, leaf_cosine(tilt_y).value];
        plain_c(&damped, &TiltTrig { sin_x, cos_x, sin_y, cos_y }, numbers, flags)
    };
    bench.row(name, [returned(&flat, library), called(&datasets, rust), returned(&flat, c)]);
}

/// Different numbers of rows, and rows that lie behind the camera.
pub fn scorings(bench: &mut Bench) {
    let rows = row_list(ROWS, &mut bench.random);
    for count in [ROWS, 100, 10] {
        scoring(bench, &format!("projecting and scoring {count} rows"), &rows[..count]);
    }
    scoring(bench, "one row", &rows[..1]);
    with_flags(bench, "half of them at random behind the camera", &rows, |random| {
        random.once_in(2)
    });
    with_flags(bench, "three of four at random behind the camera", &rows, |random| {
        random.once_in(4)
    });
    with_flags(bench, "all behind the camera", &rows, |_| false);
    counted(bench, &format!("sum and count of the errors of {ROWS} rows"), &rows);
}

/// The rows, of which some are in front of the camera.
fn with_flags(bench: &mut Bench, name: &str, rows: &[Row], in_front: fn(&mut Random) -> bool) {
    let mut rows = rows.to_vec();
    rows.iter_mut().for_each(|row| row.in_front = in_front(&mut bench.random));
    scoring(bench, &format!("{ROWS} rows, {name}"), &rows);
}
