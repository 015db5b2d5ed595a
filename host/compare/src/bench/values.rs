//! Small operations with structs by value on all sides, as the library's interface has them: each side makes the copy that a call
//! needs. In the table's other rows the Rust and C are lent theirs.

use super::Bench;
use super::geometry::{
    FEW, K, LENS, each, known_plate, lenses, plate_camera, points, published_k, published_lens,
    published_matrix, published_points, trigs,
};
use super::operation::{called_by_value, returned};
use super::scoring::given;
use crate::plain::{
    CameraReply, InverseReply, Matrix, value_centre_penalty, value_conic_to_camera, value_damp,
    value_determinant, value_distort_with_jacobian, value_distortion_penalty, value_inverse,
    value_pixel_to_sensor, value_sensor_to_pixel, value_tilt_matrix,
};
use jinnychair::FxFyCxCy;
use jinnychair::geometry::{self, Matrix3};
use vision_calibration_core::IntrinsicsModel;
use vision_calibration_core::distortion::access::distort_with_jacobian;
use vision_calibration_linear::scheimpflug_init::access as published;
use vision_calibration_linear::zhang_intrinsics::PlanarIntrinsicsLinearInit;

pub fn all(bench: &mut Bench) {
    matrices(bench);
    cameras(bench);
    lens(bench);
}

fn named(name: &str) -> String {
    format!("{name} (by value on all sides)")
}

fn inverse(InverseReply { number, inverse }: InverseReply) -> Option<Matrix3> {
    (number == 0).then_some(inverse.0)
}

fn camera(CameraReply { number, camera }: CameraReply) -> Option<FxFyCxCy> {
    (number == 0).then_some(camera)
}

fn matrices(bench: &mut Bench) {
    let trigs = trigs(&mut bench.random);
    let for_rust = each(&trigs, |trig| given(*trig));
    let sides = [
        returned(&trigs, |trig| geometry::tilt_projection_matrix(*trig)),
        called_by_value(&for_rust, |trig| trig.matrix()),
        returned(&trigs, |trig| value_tilt_matrix(*trig).0),
    ];
    bench.row(&named("the matrix of a tilt"), sides);
    let matrices = each(&trigs, |trig| geometry::tilt_projection_matrix(*trig));
    let (for_rust, for_c) = (each(&matrices, published_matrix), each(&matrices, |m| Matrix(*m)));
    let sides = [
        returned(&matrices, |m| geometry::inverse(*m)),
        called_by_value(&for_rust, |m| m.try_inverse()),
        returned(&for_c, |m| inverse(value_inverse(*m))),
    ];
    bench.row(&named("its inverse"), sides);
    let sides = [
        returned(&matrices, |m| geometry::determinant(*m)),
        called_by_value(&for_rust, |m| m.determinant()),
        returned(&for_c, |m| value_determinant(*m)),
    ];
    bench.row(&named("its determinant"), sides);
}

fn cameras(bench: &mut Bench) {
    let pixels = points(FEW, [640.0, 480.0], &mut bench.random);
    let inputs = each(&pixels, |p| (K, *p));
    let for_rust = each(&published_points(&pixels), |p| (published_k(&K), *p));
    let sides = [
        returned(&inputs, |(k, p)| k.pixel_to_sensor(*p)),
        called_by_value(&for_rust, |(k, p)| k.pixel_to_sensor(&p)),
        returned(&inputs, |(k, p)| value_pixel_to_sensor(*k, *p)),
    ];
    bench.row(&named("from a pixel to the sensor"), sides);
    let sides = [
        returned(&inputs, |(k, p)| k.sensor_to_pixel(*p)),
        called_by_value(&for_rust, |(k, p)| k.sensor_to_pixel(&p)),
        returned(&inputs, |(k, p)| value_sensor_to_pixel(*k, *p)),
    ];
    bench.row(&named("from the sensor to a pixel"), sides);
    let sides = [
        returned(&inputs, |(k, p)| geometry::principal_point_complexity(*k, *p)),
        called_by_value(&for_rust, |(k, p)| published::principal_point_complexity(&k, p)),
        returned(&inputs, |(k, p)| value_centre_penalty(*k, *p)),
    ];
    bench.row(&named("the penalty on a centre"), sides);
    let cameras: Vec<FxFyCxCy> = (0..FEW).map(|i| plate_camera(i, &mut bench.random)).collect();
    let conics = each(&cameras, |k| known_plate(k).expect("a camera with a plate"));
    let for_rust = each(&conics, |b| [b.b11, b.b12, b.b22, b.b13, b.b23, b.b33]);
    let sides = [
        returned(&conics, |b| geometry::conic_to_camera(*b)),
        called_by_value(&for_rust, |b| PlanarIntrinsicsLinearInit::from_homographies(&b)),
        returned(&conics, |b| camera(value_conic_to_camera(*b))),
    ];
    bench.row(&named("the camera of a conic"), sides);
}

fn lens(bench: &mut Bench) {
    let lenses = lenses(&mut bench.random);
    let for_rust = each(&lenses, published_lens);
    let sides = [
        returned(&lenses, |d| d.damped()),
        called_by_value(&for_rust, published::damp_seed_distortion),
        returned(&lenses, |d| value_damp(*d)),
    ];
    bench.row(&named("damping"), sides);
    let sides = [
        returned(&lenses, |d| d.complexity()),
        called_by_value(&for_rust, |d| published::distortion_complexity(&d)),
        returned(&lenses, |d| value_distortion_penalty(*d)),
    ];
    bench.row(&named("the penalty on distortion"), sides);
    let inputs = each(&points(FEW, [0.5, 0.4], &mut bench.random), |p| (LENS, *p));
    let for_rust = each(&inputs, |(d, p)| (published_lens(d), *p));
    let sides = [
        returned(&inputs, |(d, p)| d.distort_with_jacobian(*p)),
        called_by_value(&for_rust, |(d, p)| distort_with_jacobian(&d, p.x, p.y)),
        returned(&inputs, |(d, p)| value_distort_with_jacobian(*d, *p)),
    ];
    bench.row(&named("distort with its derivatives"), sides);
}
