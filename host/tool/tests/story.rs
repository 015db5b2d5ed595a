//! The story that the search is for: a small negative tilt is found, with its sign, by a scripted
//! host and by the example host, with and without noise in the pixels.
#![allow(missing_docs)]

use jinnychair::{
    BrownConrady5, FxFyCxCy, Inputs, Options, PinholeCamera, Pt2, ScheimpflugParams, Seed,
    Solution, Winner,
};
use tool::drive::{last_step, run, to_the_end};
use tool::lean::{Lean, Lens};
use tool::open::Open;
use tool::plan::Plan;
use tool::solve::Host;
use tool::synthetic::{BUILT_IN, Truth};
use tool::views::Plate;

/// Degrees about one axis, from −0.1 to −3.
const PLANTED: [f64; 8] = [-0.1, -0.2, -0.35, -0.5, -1.0, -1.7, -2.4, -3.0];

fn about_x(degrees: f64) -> ScheimpflugParams {
    ScheimpflugParams { tilt_x: degrees.to_radians(), tilt_y: 0.0 }
}

fn about_y(degrees: f64) -> ScheimpflugParams {
    ScheimpflugParams { tilt_x: 0.0, tilt_y: degrees.to_radians() }
}

/// The usual grid; after `rounds` rounds the step is 0.02 / 2^(rounds − 1) radians.
fn options(rounds: usize) -> Options {
    let mut options = Options::default();
    options.refine_rounds = rounds;
    options
}

/// The winner lies within the last step of the planted tilts, and a tilt that isn't 0 has its sign.
fn assert_found(winner: &Winner, planted: ScheimpflugParams, options: &Options) {
    let won = winner.sensor;
    for (won, planted) in [(won.tilt_x, planted.tilt_x), (won.tilt_y, planted.tilt_y)] {
        let distance = (won - planted).abs();
        assert!(distance <= last_step(options), "won {won}, planted {planted}");
        assert!(planted == 0.0 || won.signum() == planted.signum(), "won {won}, planted {planted}");
    }
}

const SCRIPTED: FxFyCxCy = FxFyCxCy { fx: 1000.0, fy: 1000.0, cx: 640.0, cy: 480.0 };

/// A host whose error is the distance from the planted tilts, in units of 0.001 radians: one row, the ideal point 0, 0,
/// which the tilt matrix maps to the centre.
fn scripted(seed: &Seed, planted: ScheimpflugParams) -> Solution {
    let dx = seed.sensor.tilt_x - planted.tilt_x;
    let dy = seed.sensor.tilt_y - planted.tilt_y;
    Solution {
        camera: PinholeCamera { k: SCRIPTED, dist: BrownConrady5::default() },
        rows: vec![0.0, 0.0, SCRIPTED.cx + 1000.0 * dx.hypot(dy), SCRIPTED.cy],
        flags: vec![1],
    }
}

fn search_with(host: &Host, options: &Options, decomposition: &[Seed]) -> Winner {
    let base = host.base();
    let (views, center) = (host.plate().views.len(), host.observed_centre());
    let inputs = Inputs { views, options, decomposition, base, center };
    run(&inputs, &[], |seed| host.solve(seed), to_the_end).unwrap().winner.unwrap()
}

fn each_axis() -> impl Iterator<Item = ScheimpflugParams> {
    PLANTED.into_iter().flat_map(|degrees| [about_x(degrees), about_y(degrees)])
}

#[test]
fn scripted_host_finds_small_negative_tilts() {
    let options = options(10);
    for planted in each_axis() {
        let center = Pt2 { x: SCRIPTED.cx, y: SCRIPTED.cy };
        let inputs =
            Inputs { views: 3, options: &options, decomposition: &[], base: SCRIPTED, center };
        let finished = run(&inputs, &[], |seed| Some(scripted(seed, planted)), to_the_end).unwrap();
        assert_found(&finished.winner.unwrap(), planted, &options);
    }
}

#[test]
fn example_host_finds_small_negative_tilts_from_the_grid_alone() {
    let options = options(8);
    for planted in each_axis() {
        let host = Host::new(Truth { sensor: planted, noise: 0.0, ..BUILT_IN }.plate()).unwrap();
        assert_found(&search_with(&host, &options, &[]), planted, &options);
    }
}

#[test]
fn one_axis_finds_small_negative_tilts() {
    let mut options = options(8);
    (options.one_axis, options.tilt_y_seeds) = (true, vec![0.0]);
    for planted in PLANTED.map(about_x) {
        let host = Host::new(Truth { sensor: planted, noise: 0.0, ..BUILT_IN }.plate()).unwrap();
        assert_found(&search_with(&host, &options, &[]), planted, &options);
        let seed = host.decomposition_on_one_axis().unwrap();
        assert!((seed.sensor.tilt_x - planted.tilt_x).abs() < 1e-9 && seed.sensor.tilt_y == 0.0);
        assert_found(&search_with(&host, &options, &[seed]), planted, &options);
    }
}

#[test]
fn example_host_finds_small_negative_tilts_in_noise() {
    // The last step is 0.07°: noise of 0.1 pixels leaves the tilt open by some hundredths of a degree.
    let options = options(5);
    for planted in each_axis() {
        let host = Host::new(Truth { sensor: planted, noise: 0.1, ..BUILT_IN }.plate()).unwrap();
        assert_found(&search_with(&host, &options, &[]), planted, &options);
    }
}

#[test]
fn decomposition_seed_is_the_planted_tilt_without_noise() {
    let truth = Truth { noise: 0.0, ..BUILT_IN };
    let host = Host::new(truth.plate()).unwrap();
    let seed = host.decomposition().unwrap();
    assert!((seed.sensor.tilt_x - truth.sensor.tilt_x).abs() < 1e-9);
    assert!((seed.sensor.tilt_y - truth.sensor.tilt_y).abs() < 1e-9);
    assert!(search_with(&host, &options(6), &[seed]).mean_reproj_error < 1e-6);
}

/// What the program says of the centre: a stated centre that is off by some pixels moves the tilts by so much.
#[test]
fn a_centre_that_is_off_moves_the_tilts_as_told() {
    let truth = Truth { noise: 0.0, ..BUILT_IN };
    let found = |centre: [f64; 2]| {
        let mut plate = truth.plate();
        plate.centre = Some(centre);
        let host = Host::new(plate).unwrap();
        let winner = search_with(&host, &options(6), &[host.decomposition().unwrap()]);
        let seed = Seed { reference_k: winner.camera.k, sensor: winner.sensor };
        let lean = Lean::new(&host, &seed, Lens::Open).unwrap();
        let open = Open::new(&winner, &lean, &Plan::new(&options(6), &[]), Some(10.0));
        (open.lean.unwrap(), open.by_tolerance().unwrap())
    };
    let [cx, cy] = [truth.k.cx, truth.k.cy];
    let (here, told) = found([cx, cy]);
    let (moved, _) = found([cx + 10.0, cy + 10.0]);
    assert!((moved[0] - here[0] - told[0]).abs() < 0.02 * told[0]);
    assert!((here[1] - moved[1] - told[1]).abs() < 0.02 * told[1]);
}

/// What the program says of noise: the leans of many plates spread by about as much.
#[test]
fn noise_leaves_the_tilts_open_as_told() {
    const PLATES: usize = 12;
    let (mut told, mut squares) = (0.0, 0.0);
    let held = |j: usize| {
        let (sine, cosine) = (45.0 * j as f64).to_radians().sin_cos();
        [35.0 * sine, 35.0 * cosine, (j / 8) as f64, 0.0, 440.0 + (j / 8) as f64]
    };
    // All in one, so that no noise comes twice.
    let held: Vec<_> = (0..8 * PLATES).map(held).collect();
    let all = Truth { noise: 0.3, ..BUILT_IN }.plate_held(&held);
    for views in all.views.chunks(8) {
        let host = Host::new(Plate { views: views.to_vec(), ..all }).unwrap();
        let winner = search_with(&host, &options(6), &[]);
        let seed = Seed { reference_k: winner.camera.k, sensor: winner.sensor };
        let lean = Lean::new(&host, &seed, Lens::Exact).unwrap();
        let [x, y] = lean.by_noise().unwrap();
        told += 0.5 * (x + y) / PLATES as f64;
        let [x, y] = lean.tilts();
        let [x, y] = [x - BUILT_IN.sensor.tilt_x, y - BUILT_IN.sensor.tilt_y];
        squares += 0.5 * (x * x + y * y) / PLATES as f64;
    }
    let seen = 2.0 * squares.sqrt();
    assert!((0.6..1.6).contains(&(seen / told)), "seen {seen}, told {told}");
}

/// Why the centre is held: with the centre of an untilted camera's solution, tilt 0 fits exactly.
#[test]
fn a_free_centre_hides_the_tilt() {
    let mut plate = Truth { noise: 0.0, ..BUILT_IN }.plate();
    let (k, sensor) = (BUILT_IN.k, BUILT_IN.sensor);
    plate.centre = Some([
        k.cx + k.fx * sensor.tilt_y.sin() * sensor.tilt_x.cos(),
        k.cy - k.fy * sensor.tilt_x.sin(),
    ]);
    let host = Host::new(plate).unwrap();
    let winner = search_with(&host, &options(6), &[]);
    assert_eq!(winner.sensor, ScheimpflugParams::default());
    assert!(winner.mean_reproj_error < 1e-6);
}
