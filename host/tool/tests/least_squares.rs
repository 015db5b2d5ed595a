//! The example host's least squares on views of known tilt: from every start, wherever the plate's origin is, with bounds that
//! cover.
#![allow(missing_docs)]

use jinnychair::{FxFyCxCy, Pt2, ScheimpflugParams, Seed};
use tool::distribution::COVERED;
use tool::lean::{Lean, Lens, Optimum};
use tool::least_squares::{FOR_THE_LEAN, Prior, TILTED};
use tool::solve::Host;
use tool::synthetic::{BUILT_IN, Truth};
use tool::verdict;
use tool::views::Plate;

fn seed(host: &Host, tilt_x: f64, tilt_y: f64) -> Seed {
    Seed { reference_k: host.base(), sensor: ScheimpflugParams { tilt_x, tilt_y } }
}

fn truth() -> [f64; 2] {
    [BUILT_IN.sensor.tilt_x, BUILT_IN.sensor.tilt_y]
}

/// The lean around the true tilts.
fn lean(plate: Plate, lens: Lens) -> (Host, Lean) {
    let host = Host::new(plate).unwrap();
    let [x, y] = truth();
    let lean = Lean::new(&host, &seed(&host, x, y), lens).unwrap();
    (host, lean)
}

/// How far the truth may lie from an optimum.
fn bounds(optimum: &Optimum) -> [f64; 2] {
    optimum.bounds(optimum.tilts(), COVERED).unwrap()
}

/// Poses that differ from set to set, which are turned by up to some 35° about all axes.
fn held(set: usize, views: usize) -> Vec<[f64; 5]> {
    let pose = |view: usize| {
        let angle = 2.4 * view as f64 + 0.7 * set as f64;
        let turn = 22.0 + 13.0 * (1.3 * (view + set) as f64).sin();
        [
            turn * angle.sin(),
            turn * angle.cos(),
            8.0 * angle.cos(),
            set as f64 % 7.0,
            430.0 + 5.0 * view as f64,
        ]
    };
    (0..views).map(pose).collect()
}

/// Tangential distortion of every pixel about the stated centre.
fn bent(mut plate: Plate, p1: f64) -> Plate {
    let k = BUILT_IN.k;
    for pixel in plate.views.iter_mut().flat_map(|view| &mut view.pixels) {
        let (x, y) = ((pixel.x - k.cx) / k.fx, (pixel.y - k.cy) / k.fy);
        pixel.x += k.fx * 2.0 * p1 * x * y;
        pixel.y += k.fy * p1 * (x * x + 3.0 * y * y);
    }
    plate
}

#[test]
fn every_typed_tilt_is_solved_for() {
    // The i-th of 49 pairs, at every 5° within ±15°.
    let pair = |i: usize| [i % 7, i / 7].map(|i| (5.0 * i as f64 - 15.0).to_radians());
    for (tilt, views) in (0..49).zip([3, 4, 6, 5].into_iter().cycle()) {
        let [tilt_x, tilt_y] = pair(tilt);
        let sensor = ScheimpflugParams { tilt_x, tilt_y };
        let host = Host::new(Truth { sensor, ..BUILT_IN }.plate_held(&held(tilt, views))).unwrap();
        for [x, y] in (0..49).map(pair) {
            assert!(host.solve(&seed(&host, x, y)).is_some(), "{sensor:?}: {x} {y}");
        }
        let rms = host.fit(&seed(&host, tilt_x, tilt_y)).unwrap().rms();
        assert!((0.06..0.075).contains(&rms), "{sensor:?}: {rms}");
    }
}

#[test]
fn neither_origin_nor_unit_of_the_plate_matters() {
    let (_, here) = lean(BUILT_IN.plate(), Lens::Open);
    for (scale, by) in
        [(1.0, [-90.0, -60.0]), (1.0, [1000.0, 1000.0]), (1e-3, [0.0, 0.0]), (1e6, [1e8, 0.0])]
    {
        let mut plate = BUILT_IN.plate();
        for place in plate.views.iter_mut().flat_map(|view| &mut view.board) {
            *place = Pt2 { x: scale * place.x + by[0], y: scale * place.y + by[1] };
        }
        let (_, there) = lean(plate, Lens::Open);
        let relative = (there.plain.fitted.squares / here.plain.fitted.squares - 1.0).abs();
        assert!(relative < 1e-9, "{scale} {by:?}: {relative}");
        for i in 0..2 {
            assert!((there.plain.tilts()[i] - here.plain.tilts()[i]).abs() < 1e-8);
            let both = [&there, &here].map(|lean| lean.plain.deviations().unwrap()[i]);
            assert!((both[0] / both[1] - 1.0).abs() < 1e-5);
        }
    }
}

#[test]
fn copies_of_a_view_shrink_no_bound() {
    let (_, once) = lean(BUILT_IN.plate(), Lens::Open);
    let mut plate = BUILT_IN.plate();
    plate.views.extend(plate.views.clone());
    // The order of the dots doesn't hide a copy, nor does a dot that is missing.
    for view in &mut plate.views[14..] {
        view.board.reverse();
        view.pixels.reverse();
        view.board.pop();
        view.pixels.pop();
    }
    let (host, twice) = lean(plate, Lens::Open);
    assert_eq!(host.repeats().len(), 14);
    assert_eq!(host.repeats()[3], [17, 3]);
    let bounds = |lean: &Lean| lean.bounds(truth()).unwrap();
    for i in 0..2 {
        assert!((bounds(&twice)[i] / bounds(&once)[i] - 1.0).abs() < 1e-6);
    }
}

/// Of 240 tilts, 95.45 of 100 lie within a bound that is exact; four standard deviations of that are 5.4 of 100.
#[test]
fn bounds_cover_as_many_as_they_say_also_with_few_views() {
    for views in [3, 4, 8] {
        let mut covered = [0; 2];
        // All in one, so that no noise comes twice.
        let all: Vec<_> = (0..120).flat_map(|set| held(set, views)).collect();
        let all = Truth { noise: 0.3, ..BUILT_IN }.plate_held(&all);
        for set in all.views.chunks(views) {
            let (_, lean) = lean(Plate { views: set.to_vec(), ..all }, Lens::Open);
            for (covered, optimum) in covered.iter_mut().zip([&lean.plain, lean.open().unwrap()]) {
                let (here, bounds) = (optimum.tilts(), bounds(optimum));
                *covered += (0..2).filter(|&i| (here[i] - truth()[i]).abs() <= bounds[i]).count();
            }
        }
        assert!(
            covered.iter().all(|covered| (216..=240).contains(covered)),
            "{views} views: {covered:?}"
        );
    }
}

#[test]
fn a_lens_is_found_by_the_test_and_covered_where_it_is_not() {
    let told = |p1: f64, noise: f64| {
        let (host, lean) = lean(bent(Truth { noise, ..BUILT_IN }.plate(), p1), Lens::Open);
        let (here, bounds) = (lean.tilts(), lean.bounds(lean.tilts()).unwrap());
        let covers = (0..2).all(|i| (here[i] - truth()[i]).abs() <= bounds[i]);
        let points = verdict::of_model(&host, &lean);
        (points.into_iter().map(|point| (point.code, point.what)).collect::<Vec<_>>(), covers)
    };
    let (points, covers) = told(0.002, 0.1);
    assert!(points[0].1.contains("It would look like a lean of 0.2") && covers, "{points:?}");
    assert_eq!((points.len(), points[0].0), (1, "lens"));
    assert_eq!(told(0.0, 0.1), (vec![], true));
    assert_eq!(told(0.0005, 0.4), (vec![], true));
}

#[test]
fn views_that_are_all_mirrored_are_told_unless_the_plate_is() {
    let mut plate = BUILT_IN.plate();
    for place in plate.views.iter_mut().flat_map(|view| &mut view.board) {
        place.y = -place.y;
    }
    let (host, _) = lean(plate, Lens::Open);
    let [x, y] = truth();
    let fit = host.fit(&seed(&host, x, y)).unwrap();
    assert!(verdict::of_fit(&fit, true).is_empty());
    let point = &verdict::of_fit(&fit, false)[0];
    assert!(point.what.starts_with("all views show the plate mirrored"), "{point}");
}

/// From the optimum, and from a start a degree beside it, the same optimum is found; for a long focal length too, where
/// perspective says little.
#[test]
fn the_optimum_is_the_same_from_everywhere() {
    for zoom in [1.0, 10.0, 35.0] {
        let k = FxFyCxCy { fx: 1420.0 * zoom, fy: 1415.0 * zoom, ..BUILT_IN.k };
        let held = held(2, 10).into_iter().map(|[a, b, x, y, z]| [a, b, x, y, z * zoom]);
        let plate = Truth { k, noise: 0.02, ..BUILT_IN }.plate_held(&held.collect::<Vec<_>>());
        let host = Host::new(plate).unwrap();
        let from = |x: f64, y: f64| {
            Lean::new(&host, &seed(&host, x.to_radians(), y.to_radians()), Lens::Open).unwrap()
        };
        let here = from(-1.2, -0.4);
        let views = host.distinct();
        let here = here.plain.fitted;
        let problem = host.problem(&views, Prior::default());
        let again = problem.optimum(TILTED, here.clone(), FOR_THE_LEAN).unwrap();
        for there in [again, from(-0.2, 0.6).plain.fitted] {
            let moved = [2, 3].map(|i| there.shared[i] - here.shared[i]);
            assert!(moved[0].hypot(moved[1]) < 1e-7, "{zoom}: {moved:?}");
            assert!((there.squares - here.squares).abs() < 1e-9, "{zoom}: {there:?}");
        }
    }
}
