//! Lists of seeds, and whole runs.

use super::Bench;
use super::operation::{Same, Tried};
use super::scoring::{CAMERA, ROWS, flat, library_camera, row_list};
use super::timing::{Side, keep};
use jinnychair::record::{self, answer, next, seed, start};
use jinnychair::{Finding as LibraryFinding, Handed, Pt2, Rows, Seed, TiltTrig, Winner, geometry};
use oracle::operations::search::{Published, run};
use std::hint::black_box;
use std::rc::Rc;
use stored::library::{library_inputs, result_words};
use vision_calibration_linear::scheimpflug_init::access as published;
use vision_calibration_linear::scheimpflug_init::estimate_scheimpflug_intrinsics_iterative;
use vision_calibration_linear::script::{
    Finding, Row, SeedNumbers, dataset_of_rows, pinhole_camera, play,
};
use words::start::Inputs;

/// How many numbers the longest list has.
pub const LIST_LEN: usize = 6 * 512;

/// 256 decomposition seeds and a grid of 16 by 16, none of them near another.
pub fn most_seeds() -> Inputs {
    let tilts: Vec<f64> = (0..16).map(|i| 0.015625 * f64::from(i) - 0.125).collect();
    let decomposition = |i: usize| {
        let (column, row) = ((i % 16) as f64, (i / 16) as f64);
        [750.0 + column, 800.0, 320.0, 240.0, 0.0078125 * row, 0.0625]
    };
    Inputs {
        views: 3,
        tilt_x_seeds: tilts.clone(),
        tilt_y_seeds: tilts,
        rounds: 16,
        refine_step: 0.0625,
        max_abs_tilt: 0.25,
        decomposition: (0..256).flat_map(decomposition).collect(),
        base: [800.0, 790.0, 320.5, 239.25],
        center: [320.0, 240.0],
    }
}

/// 256 decomposition seeds, each near the one before it: every fourth is kept, and the three behind it lie near that one alone.
/// One typed pair of tilts, near none of them.
fn close_seeds() -> Inputs {
    let decomposition = |i: u32| [800.0, 790.0, 320.5, 239.25, 0.1 + 3e-13 * f64::from(i), 0.0625];
    Inputs {
        tilt_x_seeds: vec![0.0],
        tilt_y_seeds: vec![0.0],
        decomposition: (0..256).flat_map(decomposition).collect(),
        ..most_seeds()
    }
}

fn first_list(bench: &mut Bench, name: &str, inputs: &Inputs, kept: usize) {
    let for_library = library_inputs(inputs);
    let mut list = vec![0.0; LIST_LEN];
    let run = start(&for_library, &mut list).expect("good inputs");
    assert_eq!(run.place.len, kept);
    let answer = list[..6 * kept].to_vec();
    let library = || keep(start(black_box(&for_library), &mut list).expect("good inputs"));
    let library = Tried::new(&answer, Side::new(library));

    let (dataset, options) = (inputs.dataset(), inputs.options());
    let base = pinhole_camera(CAMERA).k;
    let rust = || {
        published::validate_options(&dataset, &options)?;
        published::initial_seed_grid(black_box(&dataset), &base, &options)
    };
    let answer = scripted(inputs, rust).expect("good inputs").as_flattened().to_vec();
    // One script for all turns: the search alone is charged to the Rust.
    let turns = |repeats| scripted(inputs, || (0..repeats).for_each(|_| keep(rust())));
    bench.row(name, [library, Tried::new(&answer, Side::repeating(1, turns))]);
}

/// Runs a part of the published search that asks the host for nothing but what it gives before.
fn scripted<R>(inputs: &Inputs, part: impl FnOnce() -> R) -> R {
    let never_asked = |_: &SeedNumbers| Finding::Failed;
    play(inputs.given(false), never_asked, part).0
}

/// Round 0's list.
pub fn lists(bench: &mut Bench) {
    first_list(bench, "building a round-0 list of 512 seeds", &most_seeds(), 512);
    first_list(bench, "the same of 256 seeds near their predecessors", &close_seeds(), 65);
}

/// The pixels of each view without a seed's tilt, which the published search works out itself and the library leaves to its host.
fn untilt_views(seed: &Seed, views: usize) {
    let trig = TiltTrig::try_from(seed.sensor).expect("a tilt within the bound");
    for _ in 0..views {
        // The published search has as many pixels, all of them here.
        let (pixels, mut to) = ([Pt2::default(); 4], [Pt2::default(); 4]);
        let untilted = geometry::untilt_points(seed.reference_k, trig, black_box(&pixels), &mut to);
        untilted.expect("a tilt that can be undone");
        keep(to);
    }
}

fn library_run(inputs: &Inputs, (numbers, flags): &(Vec<f64>, Vec<u8>)) -> Winner {
    let mut list = vec![0.0; LIST_LEN];
    let mut run = start(&library_inputs(inputs), &mut list).expect("good inputs");
    while let Ok(Handed::Candidate { .. }) = next(&mut run, &list) {
        let seed = seed(&run, &list).map(Seed::from_numbers).expect("a seed waits");
        untilt_views(&seed, inputs.views);
        let rows = Rows { numbers, flags };
        let finding = LibraryFinding::Solved { camera: library_camera(), rows };
        answer(&mut run, &finding, &mut list).expect("a good answer");
    }
    assert_eq!(run.place.number, 656);
    record::result(&run).expect("a winner")
}

fn whole_run(bench: &mut Bench, name: &str, rows: &[Row]) {
    let (inputs, flat) = (most_seeds(), flat(rows));
    let shared = Rc::new(dataset_of_rows(rows));
    let host = || {
        let shared = shared.clone();
        move |_: &SeedNumbers| Finding::Shared { camera: CAMERA, rows: shared.clone() }
    };
    // The oracle's words have the outcomes of all candidates in front of the result; they aren't written in a turn.
    let result = result_words(Ok(library_run(&inputs, &flat)));
    let of_rust = run(&inputs, host()).expect("a winner");
    let of_rust = Same(of_rust[of_rust.len() - result.len()..].to_vec());
    let (dataset, options) = (inputs.dataset(), inputs.options());
    let rust = || {
        let search = || estimate_scheimpflug_intrinsics_iterative(&dataset, options.clone());
        play(inputs.given(true), host(), search)
    };
    let library = || keep(library_run(black_box(&inputs), &flat));
    let sides = [
        Tried::new(&Same(result), Side::new(library)),
        Tried::new(&of_rust, Side::new(|| keep(rust()))),
    ];
    bench.row(name, sides);
}

pub fn runs(bench: &mut Bench) {
    let rows = row_list(ROWS, &mut bench.random);
    whole_run(bench, "a whole run of 656 answers with 900 rows", &rows);
    whole_run(bench, "the same with one row: lists and all but the scoring", &rows[..1]);
}
