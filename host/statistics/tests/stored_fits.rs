//! The host's optimum, and the yardstick's, beside those that SciPy and OpenCV found for the stored views.
#![allow(missing_docs)]

use jinnychair::{ScheimpflugParams, Seed};
use statistics::reference::{BENT, PLAIN, Problem};
use statistics::stored_fit::{Answer, StoredFit, stored};
use tool::lean::{Lean, Lens};
use tool::solve::Host;

/// Of the sum of squares.
const SQUARES: f64 = 1e-9;
/// Of a tilt, in radians: where a pixel of noise moves it little, and with a focal length of 14,200 px.
const TILTS: [f64; 2] = [1e-7, 2e-7];
/// Of a deviation.
const DEVIATIONS: f64 = 1e-6;

fn is_near(found: f64, expected: f64, part: f64) -> bool {
    (found / expected - 1.0).abs() <= part
}

fn check(what: &str, set: &StoredFit, expected: &Answer, found: (f64, [f64; 2], [f64; 2])) {
    let (squares, tilts, deviations) = found;
    let most = TILTS[usize::from(set.truth[0] > 10_000.0)];
    let name = &set.name;
    assert!(is_near(squares, expected.squares, SQUARES), "{what} {name}: {squares}, {expected:?}");
    for i in 0..2 {
        let off = (tilts[i] - expected.shared[2 + i]).abs();
        assert!(off <= most, "{what} {name}: {off} rad");
        let deviation = expected.deviations[2 + i];
        assert!(is_near(deviations[i], deviation, DEVIATIONS), "{what} {name}: {deviations:?}");
    }
}

#[test]
fn there_are_twenty_sets_of_all_kinds() {
    let sets = stored().unwrap();
    let range = |of: fn(&StoredFit) -> usize| {
        let all = || sets.iter().map(of);
        [all().min().unwrap(), all().max().unwrap()]
    };
    assert_eq!(sets.len(), 20);
    assert_eq!(range(|set| set.plate.views.len()), [3, 14]);
    assert_eq!(range(|set| set.plate.views[0].dots()), [9, 70]);
    assert_eq!(range(|set| set.truth[0] as usize), [1_420, 14_200]);
}

#[test]
fn the_yardstick_is_scipy_s() {
    for set in stored().unwrap() {
        let problem = Problem::new(&set.plate);
        let mut straight = set.truth;
        straight[4..].fill(0.0);
        for (free, start, expected) in [(PLAIN, straight, &set.plain), (BENT, set.truth, &set.bent)]
        {
            let fit = problem.optimum(free, problem.start(start, &set.poses)).unwrap();
            let deviations = problem.deviations(free, &fit).unwrap();
            let tilts = [fit.shared[2], fit.shared[3]];
            let found = (fit.squares, tilts, [deviations[2], deviations[3]]);
            check("the yardstick", &set, expected, found);
        }
    }
}

/// From a start without tilt.
#[test]
fn the_host_s_optimum_is_scipy_s() {
    for set in stored().unwrap() {
        let host = Host::new(set.plate.clone()).unwrap();
        let seed = Seed { reference_k: host.base(), sensor: ScheimpflugParams::default() };
        let found = Lean::new(&host, &seed, Lens::Open).unwrap().plain;
        let found = (found.fitted.squares, found.tilts(), found.deviations().unwrap());
        check("the host", &set, &set.plain, found);
    }
}

#[test]
fn open_cv_s_optimum_is_scipy_s() {
    for set in stored().unwrap() {
        let [squares, tilt_x, tilt_y] = set.opencv;
        let here = set.plain.deviations[2..4].try_into().unwrap();
        check("OpenCV", &set, &set.plain, (squares, [tilt_x, tilt_y], here));
    }
}
