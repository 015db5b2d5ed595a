//! The operations other than the search, each compared with the published Rust and plain C.

use super::Bench;
use super::operation::{Same, called, returned, written};
use super::scoring::given;
use crate::plain::{
    leaf_apply_homography, leaf_apply_homography_inverse, leaf_centre, leaf_centre_penalty,
    leaf_collinear, leaf_conic_to_camera, leaf_damp, leaf_design_rows, leaf_determinant,
    leaf_distort, leaf_distort_with_jacobian, leaf_distortion_penalty, leaf_inverse,
    leaf_map_points, leaf_normalize, leaf_pixel_to_sensor, leaf_sensor_to_pixel, leaf_tilt_matrix,
    leaf_tilt_penalty, leaf_undistort,
};
use jinnychair::geometry::{self, Conic, Matrix3};
use jinnychair::{BrownConrady5, FxFyCxCy, PinholeCamera, Pt2, ScheimpflugParams, TiltTrig};
use random::Random;
use vision_calibration_core::distortion::access::distort_with_jacobian;
use vision_calibration_core::given_tilt::{self, GivenTilt};
use vision_calibration_core::linalg::normalize_points_2d;
use vision_calibration_core::{
    BrownConrady5 as PublishedDistortion, CorrespondenceView, DistortionModel,
    FxFyCxCy as PublishedIntrinsics, HomographySensor, IntrinsicsModel, Mat3, PlanarDataset,
    Pt2 as PublishedPoint, Pt3, ScheimpflugParams as PublishedTilts, SensorModel, View,
};
use vision_calibration_linear::scheimpflug_init::access as published;
use vision_calibration_linear::zhang_intrinsics::PlanarIntrinsicsLinearInit;
use vision_geometry::homography::{access::points_are_collinear, dlt_homography};

/// How many inputs an operation of a few nanoseconds gets: few enough for the nearest cache.
pub const FEW: usize = 256;

pub const K: FxFyCxCy = FxFyCxCy { fx: 800.0, fy: 790.0, cx: 320.5, cy: 239.25 };
pub const LENS: BrownConrady5 =
    BrownConrady5 { k1: -0.21, k2: 0.043, k3: -0.002, p1: 0.001, p2: -0.0007 };
pub const TILTS: ScheimpflugParams = ScheimpflugParams { tilt_x: 0.05, tilt_y: -0.02 };

pub fn published_k(k: &FxFyCxCy) -> PublishedIntrinsics<f64> {
    PublishedIntrinsics { fx: k.fx, fy: k.fy, cx: k.cx, cy: k.cy }
}

pub fn published_lens(d: &BrownConrady5) -> PublishedDistortion<f64> {
    PublishedDistortion { k1: d.k1, k2: d.k2, k3: d.k3, p1: d.p1, p2: d.p2, iters: 0 }
}

pub fn published_points(points: &[Pt2]) -> Vec<PublishedPoint> {
    points.iter().map(|p| PublishedPoint::new(p.x, p.y)).collect()
}

pub fn published_matrix([[a, b, c], [d, e, f], [g, h, i]]: &Matrix3) -> Mat3 {
    Mat3::new(*a, *b, *c, *d, *e, *f, *g, *h, *i)
}

/// One view that sees these pixels.
fn published_view(pixels: &[Pt2]) -> PlanarDataset {
    let board = vec![Pt3::new(0.0, 0.0, 0.0); pixels.len()];
    let view = CorrespondenceView::new(board, published_points(pixels)).expect("as many points");
    PlanarDataset { views: vec![View::without_meta(view)] }
}

pub fn each<I, J>(inputs: &[I], as_published: impl Fn(&I) -> J) -> Vec<J> {
    inputs.iter().map(as_published).collect()
}

pub fn points(count: usize, [x, y]: [f64; 2], random: &mut Random) -> Vec<Pt2> {
    (0..count).map(|_| Pt2 { x: random.within(x), y: random.within(y) }).collect()
}

/// A lens, as the camera sees through it and back.
pub fn distortions(bench: &mut Bench) {
    let points = points(1024, [0.5, 0.4], &mut bench.random);
    let (for_rust, lens) = (published_points(&points), published_lens(&LENS));
    let sides = [
        returned(&points, |p| LENS.undistort(0, *p)),
        called(&for_rust, |p| lens.undistort(p)),
        returned(&points, |p| leaf_undistort(&LENS, 0, *p)),
    ];
    bench.row("undistort", sides);
    let sides = [
        returned(&points, |p| LENS.distort(*p)),
        called(&for_rust, |p| lens.distort(p)),
        returned(&points, |p| leaf_distort(&LENS, *p)),
    ];
    bench.row("distort", sides);
    let sides = [
        returned(&points, |p| LENS.distort_with_jacobian(*p)),
        called(&for_rust, |p| distort_with_jacobian(&lens, p.x, p.y)),
        returned(&points, |p| leaf_distort_with_jacobian(&LENS, *p)),
    ];
    bench.row("distort with its derivatives", sides);
}

pub fn all(bench: &mut Bench) {
    for count in [70, 400] {
        lists_of_points(bench, count);
    }
    point_maps(bench);
    centre(bench);
    conics(bench);
    tilted_sensor(bench);
    homographies(bench);
    intrinsics(bench);
    penalties(bench);
}

/// The dots of a plate, and about the pixels that a camera sees them at.
fn plate(count: usize, random: &mut Random) -> [Vec<Pt2>; 2] {
    let dot = |i: usize| Pt2 { x: 20.0 * (i % 10) as f64, y: 20.0 * (i / 10) as f64 };
    let dots: Vec<Pt2> = (0..count).map(dot).collect();
    let mut pixel = |p: &Pt2| {
        let depth = 1.0 + 1e-4 * p.x - 2e-4 * p.y;
        Pt2 { x: 200.0 + 2.0 * p.x / depth + random.within(0.1), y: 100.0 + 2.1 * p.y / depth }
    };
    let pixels = dots.iter().map(&mut pixel).collect();
    [dots, pixels]
}

/// Normalising, the design rows, and the line test of points that are on a line, so that all are looked at.
fn lists_of_points(bench: &mut Bench, count: usize) {
    let plate = [plate(count, &mut bench.random)];
    let for_rust = [each(&plate[0], |points| published_points(points))];
    let place = || (vec![Pt2::default(); count], [0.0; 3]);
    let sides = [
        written(&plate, place(), |[_, pixels], (to, three)| {
            let t = geometry::normalize_points_2d(pixels, to).expect("points that spread");
            *three = [t.scale, t.offset_x, t.offset_y];
        }),
        called(&for_rust, |plate| {
            normalize_points_2d(&plate[1])
                .map(|(points, t)| (points, [t[(0, 0)], t[(0, 2)], t[(1, 2)]]))
        }),
        written(&plate, place(), |[_, pixels], (to, three)| {
            assert_eq!(leaf_normalize(pixels, to, three), 0);
        }),
    ];
    bench.row(&format!("normalising {count} points"), sides);
    let place = || vec![0.0; 18 * count];
    let sides = [
        written(&plate, place(), |[dots, pixels], to| {
            geometry::design_rows(dots, pixels, to).expect("a plate");
        }),
        called(&for_rust, |plate| dlt_homography(&plate[0], &plate[1])),
        written(&plate, place(), |[dots, pixels], to| {
            assert_eq!(leaf_design_rows(dots, pixels, to), 0);
        }),
    ];
    bench.row(&format!("the design rows of {count} points"), sides);
    let line = [(0..count).map(|i| Pt2 { x: i as f64, y: 3.0 * i as f64 }).collect::<Vec<_>>()];
    let for_rust = each(&line, |points| published_points(points));
    let sides = [
        returned(&line, |points| geometry::points_are_collinear(points)),
        called(&for_rust, |points| points_are_collinear(points)),
        returned(&line, |points| leaf_collinear(points)),
    ];
    bench.row(&format!("the line test of {count} points on a line"), sides);
}

/// Both maps of a view's pixels.
fn point_maps(bench: &mut Bench) {
    let [_, pixels] = plate(70, &mut bench.random);
    let (for_rust, pixels) = ([published_view(&pixels)], [pixels]);
    let (k, lens) = (published_k(&K), published_lens(&LENS));
    let trig = TiltTrig::try_from(TILTS).expect("small tilts");
    let give = || {
        given_tilt::give(given(trig));
        PublishedTilts::default()
    };
    let place = || vec![Pt2::default(); 70];
    let sides = [
        written(&pixels, place(), |pixels, to| {
            geometry::untilt_points(K, trig, pixels, to).expect("a tilt");
        }),
        called(&for_rust, |view| published::untilt_dataset(view, &k, give())),
        written(&pixels, place(), |pixels, to| {
            assert_eq!(leaf_map_points(&K, None, &trig, pixels, to), 0);
        }),
    ];
    bench.row("70 pixels without the tilt", sides);
    let camera = PinholeCamera { k: K, dist: LENS };
    let sides = [
        written(&pixels, place(), |pixels, to| {
            geometry::ideal_points(camera, 0, trig, pixels, to).expect("a tilt");
        }),
        called(&for_rust, |view| published::ideal_dataset(view, &k, &lens, give())),
        written(&pixels, place(), |pixels, to| {
            assert_eq!(leaf_map_points(&K, Some((&LENS, 0)), &trig, pixels, to), 0);
        }),
    ];
    bench.row("70 pixels without tilt and lens", sides);
}

fn centre(bench: &mut Bench) {
    let pixels = points(980, [640.0, 480.0], &mut bench.random);
    let (for_rust, pixels) = ([published_view(&pixels)], [pixels]);
    let sides = [
        returned(&pixels, |pixels| geometry::observed_pixel_center(pixels)),
        called(&for_rust, published::observed_pixel_center),
        returned(&pixels, |pixels| leaf_centre(pixels)),
    ];
    bench.row("the centre of 980 pixels", sides);
}

/// A camera with a plate of its own, for each power of two.
pub fn plate_camera(i: usize, random: &mut Random) -> FxFyCxCy {
    let mut number = |least: i32| {
        let whole = least + random.below((257 - least) as usize) as i32;
        f64::from(whole << (i % 9))
    };
    FxFyCxCy { fx: number(1), fy: number(1), cx: number(-256), cy: number(-256) }
}

/// The six numbers of a camera whose four are whole numbers, at most 256, times one power of two.
pub fn known_plate(k: &FxFyCxCy) -> Option<Conic> {
    let FxFyCxCy { fx, fy, cx, cy } = *k;
    let is_whole = |x: f64| x.abs() <= 256.0 && f64::from(x as i32) == x;
    let fits = |unit: &f64| [fx, fy, cx, cy].iter().all(|x| is_whole(x / unit));
    let unit = (0..9).map(|power| f64::from(1 << power)).find(fits)?;
    if fx <= 0.0 || fy <= 0.0 {
        return None;
    }
    let [p, q] = [fx / unit, fy / unit];
    Some(Conic {
        b11: q * q,
        b12: 0.0,
        b22: p * p,
        b13: -(cx * (q * q)),
        b23: -(cy * (p * p)),
        b33: cx * cx * (q * q) + cy * cy * (p * p) + fx * fx * (q * q),
    })
}

/// The closed form, and the plate that it gives back.
fn conics(bench: &mut Bench) {
    let cameras: Vec<FxFyCxCy> = (0..FEW).map(|i| plate_camera(i, &mut bench.random)).collect();
    let conics = each(&cameras, |k| known_plate(k).expect("a camera with a plate"));
    let for_rust = each(&conics, |b| [b.b11, b.b12, b.b22, b.b13, b.b23, b.b33]);
    let sides = [
        returned(&conics, |b| geometry::conic_to_camera(*b)),
        called(&for_rust, PlanarIntrinsicsLinearInit::from_homographies),
        written(&conics, K, |b, to| assert_eq!(leaf_conic_to_camera(b, to), 0)),
    ];
    bench.row("the camera of a conic", sides);
    let sides = [
        returned(&cameras, |k| Same(geometry::known_plate(*k).ok())),
        called(&cameras, |k| Same(known_plate(k))),
    ];
    bench.row("a known plate (plain Rust)", sides);
}

pub fn trigs(random: &mut Random) -> Vec<TiltTrig> {
    let mut tilt = || random.within(0.5);
    let mut trig = |_| {
        let tilts = ScheimpflugParams { tilt_x: tilt(), tilt_y: tilt() };
        TiltTrig::try_from(tilts).expect("small tilts")
    };
    (0..FEW).map(&mut trig).collect()
}

/// A tilt's matrix, with its determinant and inverse.
fn tilted_sensor(bench: &mut Bench) {
    let trigs = trigs(&mut bench.random);
    let for_rust: Vec<GivenTilt> = each(&trigs, |trig| given(*trig));
    let sides = [
        returned(&trigs, |trig| geometry::tilt_projection_matrix(*trig)),
        called(&for_rust, |trig| trig.matrix()),
        written(&trigs, Matrix3::default(), |trig, to| leaf_tilt_matrix(trig, to)),
    ];
    bench.row("the matrix of a tilt", sides);
    let matrices = each(&trigs, |trig| geometry::tilt_projection_matrix(*trig));
    let for_rust = each(&matrices, published_matrix);
    let sides = [
        returned(&matrices, |m| geometry::inverse(*m)),
        called(&for_rust, |m| m.try_inverse()),
        written(&matrices, Matrix3::default(), |m, to| assert_eq!(leaf_inverse(m, to), 0)),
    ];
    bench.row("its inverse", sides);
    let sides = [
        returned(&matrices, |m| geometry::determinant(*m)),
        called(&for_rust, |m| m.determinant()),
        returned(&matrices, |m| leaf_determinant(m)),
    ];
    bench.row("its determinant", sides);
}

/// Points under a homography.
fn homographies(bench: &mut Bench) {
    let points = points(FEW, [0.5, 0.4], &mut bench.random);
    let for_rust = published_points(&points);
    let h = geometry::tilt_projection_matrix(TiltTrig::try_from(TILTS).expect("small tilts"));
    let sensor = HomographySensor::new(published_matrix(&h)).expect("an inverse");
    let sides = [
        returned(&points, |p| geometry::apply_homography(h, *p)),
        called(&for_rust, |p| sensor.normalized_to_sensor(p)),
        returned(&points, |p| leaf_apply_homography(&h, *p)),
    ];
    bench.row("a point under a homography", sides);
    let h_inv = geometry::inverse(h).expect("an inverse");
    let sides = [
        returned(&points, |p| geometry::apply_homography_inverse(h_inv, *p)),
        called(&for_rust, |p| sensor.sensor_to_normalized(p)),
        returned(&points, |p| leaf_apply_homography_inverse(&h_inv, *p)),
    ];
    bench.row("a point under its inverse", sides);
}

/// From pixels to the sensor and back.
fn intrinsics(bench: &mut Bench) {
    let (points, k) = (points(FEW, [640.0, 480.0], &mut bench.random), published_k(&K));
    let for_rust = published_points(&points);
    let sides = [
        returned(&points, |p| K.pixel_to_sensor(*p)),
        called(&for_rust, |p| k.pixel_to_sensor(p)),
        returned(&points, |p| leaf_pixel_to_sensor(&K, *p)),
    ];
    bench.row("from a pixel to the sensor", sides);
    let sides = [
        returned(&points, |p| K.sensor_to_pixel(*p)),
        called(&for_rust, |p| k.sensor_to_pixel(p)),
        returned(&points, |p| leaf_sensor_to_pixel(&K, *p)),
    ];
    bench.row("from the sensor to a pixel", sides);
}

pub fn lenses(random: &mut Random) -> Vec<BrownConrady5> {
    let lens = |k1: f64, p1: f64, p2: f64| BrownConrady5 { k1, k2: 0.1, k3: 0.01, p1, p2 };
    let mut draw = |_| lens(random.within(0.3), random.within(0.1), random.within(0.1));
    (0..FEW).map(&mut draw).collect()
}

/// The parts of a score other than the mean.
fn penalties(bench: &mut Bench) {
    let lenses = lenses(&mut bench.random);
    let for_rust = each(&lenses, published_lens);
    let sides = [
        returned(&lenses, |d| d.damped()),
        called(&for_rust, |d| published::damp_seed_distortion(*d)),
        returned(&lenses, |d| leaf_damp(d)),
    ];
    bench.row("damping", sides);
    let sides = [
        returned(&lenses, |d| d.complexity()),
        called(&for_rust, published::distortion_complexity),
        returned(&lenses, |d| leaf_distortion_penalty(d)),
    ];
    bench.row("the penalty on distortion", sides);
    let centres = points(FEW, [640.0, 480.0], &mut bench.random);
    let (for_rust, k) = (published_points(&centres), published_k(&K));
    let sides = [
        returned(&centres, |centre| geometry::principal_point_complexity(K, *centre)),
        called(&for_rust, |centre| published::principal_point_complexity(&k, *centre)),
        returned(&centres, |centre| leaf_centre_penalty(&K, *centre)),
    ];
    bench.row("the penalty on a centre", sides);
    let tilts = each(&centres, |p| [p.x / 1280.0, p.y / 960.0]);
    let for_library = each(&tilts, |&[tilt_x, tilt_y]| ScheimpflugParams { tilt_x, tilt_y });
    let for_rust = each(&tilts, |&[tilt_x, tilt_y]| PublishedTilts { tilt_x, tilt_y });
    let sides = [
        returned(&for_library, |tilts| geometry::tilt_complexity(*tilts)),
        called(&for_rust, |tilts| published::tilt_complexity(*tilts)),
        returned(&tilts, |&[x, y]| leaf_tilt_penalty(x, y)),
    ];
    bench.row("the penalty on tilts", sides);
}
