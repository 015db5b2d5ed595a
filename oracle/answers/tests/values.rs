//! Values worked out by hand, through the oracle.

use oracle::operations::answer;
use words::start::Inputs;

fn answered(operation: &str, input: &[u64]) -> Vec<u64> {
    answer(operation, input).expect("the oracle has the operation and its input is whole")
}

fn bits(floats: &[f64]) -> Vec<u64> {
    floats.iter().map(|float| float.to_bits()).collect()
}

/// The answer to floats alone.
fn of(operation: &str, floats: &[f64]) -> Vec<u64> {
    answered(operation, &bits(floats))
}

/// The answer to floats and a list.
fn of_list(operation: &str, floats: &[f64], list: &[f64]) -> Vec<u64> {
    answered(operation, &[bits(floats), vec![list.len() as u64], bits(list)].concat())
}

fn accepted(floats: &[f64]) -> Vec<u64> {
    [vec![0], bits(floats)].concat()
}

#[test]
fn conics_and_their_cameras() {
    let camera = accepted(&[2.0, 2.0, 3.0, 1.0]);
    let b = [1.0, 0.0, 1.0, -3.0, -1.0, 14.0];
    assert_eq!(of("conic_to_camera", &b), camera);
    assert_eq!(of("conic_to_camera", &b.map(|number| -number)), camera);
    assert_eq!(of("conic_to_camera", &[0.0; 6]), [16]);
    assert_eq!(of("conic_to_camera", &[1.0, 0.0, 1.0, 0.0, 0.0, 0.0]), [16]);
    assert_eq!(of("conic_to_camera", &[1.0, 0.0, 1e-6, 0.0, 0.0, 1.0]), [16]);
}

#[test]
fn roots_of_four_and_two() {
    assert_eq!(of("sqrt", &[4.0]), bits(&[2.0]));
    assert_eq!(of("sqrt", &[2.0]), [0x3ff6_a09e_667f_3bcd]);
}

const BASE: [f64; 4] = [800.0, 790.0, 320.0, 240.0];

fn start(tilt_x_seeds: &[f64], tilt_y_seeds: &[f64]) -> Inputs {
    Inputs {
        views: 3,
        tilt_x_seeds: tilt_x_seeds.to_vec(),
        tilt_y_seeds: tilt_y_seeds.to_vec(),
        rounds: 0,
        refine_step: 0.125,
        max_abs_tilt: 0.25,
        decomposition: Vec::new(),
        base: BASE,
        center: [320.0, 240.0],
    }
}

/// The words of a list of seeds with these tilts and the base camera.
fn list(tilts: &[[f64; 2]]) -> Vec<u64> {
    let seed = |tilt: &[f64; 2]| bits(&[&BASE[..], tilt].concat());
    [vec![tilts.len() as u64], tilts.iter().flat_map(seed).collect()].concat()
}

#[test]
fn grids_within_the_bound() {
    let beyond = start(&[0.25, 0.5], &[0.0]).words();
    assert_eq!(answered("seed_lists", &beyond), list(&[[0.25, 0.0]]));
    let zeros = start(&[0.0, -0.0], &[0.0]).words();
    assert_eq!(answered("seed_lists", &zeros), list(&[[0.0, 0.0]]));
}

#[test]
fn the_grid_around_a_best_at_the_bound() {
    let six: Vec<[f64; 2]> =
        [0.125, 0.25].iter().flat_map(|&x| [-0.125, 0.0, 0.125].map(|y| [x, y])).collect();
    let around = [&BASE[..], &[0.25, 0.0, 0.125, 0.25]].concat();
    assert_eq!(of("local_seed_grid", &around), list(&six));
}

#[test]
fn centers_of_pixels() {
    let positive = of_list("observed_pixel_center", &[], &[2.0, 4.0, 10.0, 6.0]);
    assert_eq!(positive, bits(&[5.0, 3.0]));
    let negative = of_list("observed_pixel_center", &[], &[-2.0, 4.0, 10.0, 6.0]);
    assert_eq!(negative, bits(&[4.0, 5.0]));
}

#[test]
fn the_penalty_of_a_tilt() {
    assert_eq!(of("tilt_complexity", &[0.5, 0.0]), bits(&[0.0625]));
}

#[test]
fn a_tilt_of_a_right_angle_is_singular() {
    let tilt = [1.0, 0.0, 0.0, 1.0];
    let matrix = of("tilt_projection_matrix", &tilt);
    assert_eq!(answered("inverse", &matrix), [15]);
    assert_eq!(of_list("untilt_points", &[BASE, tilt].concat(), &[1.0, 2.0]), [15]);
    let distortion_and_iterations = [bits(&[0.0; 5]), vec![0]].concat();
    let point = [bits(&tilt), vec![0]].concat();
    let input = [bits(&BASE), distortion_and_iterations, point].concat();
    assert_eq!(answered("ideal_points", &input), [15]);
}

#[test]
fn a_negative_depth_backward_and_forward() {
    let diagonal = [1.0, 0.0, 0.0, 0.0, 1.0, 0.0, 0.0, 0.0, -2.0];
    let input = [&diagonal[..], &[2.0, 3.0]].concat();
    assert_eq!(of("apply_homography_inverse", &input), bits(&[-1.0, -1.5]));
    assert_eq!(of("apply_homography", &input), bits(&[2.0 / 1e-12, 3.0 / 1e-12]));
}

#[test]
fn searches_that_score_nothing_or_do_not_start() {
    let no_answers = |inputs: Inputs| [inputs.words(), vec![0]].concat();
    let beyond = no_answers(start(&[0.5, -0.5], &[0.0]));
    assert_eq!(answered("search", &beyond), [0, 0, 11]);
    let two_views = Inputs { views: 2, ..start(&[], &[]) };
    assert_eq!(answered("search", &no_answers(two_views)), [1]);
}
