//! What was once missed without a word: each ends right, or doubtful with its own reason.
#![allow(missing_docs)]

use jinnychair::journal::Views;
use jinnychair::{FxFyCxCy, Pt2, ScheimpflugParams, Seed, Winner};
use tool::case::{Case, Judged};
use tool::choices::Choices;
use tool::drive::Finished;
use tool::lean::{Lean, Lens};
use tool::outliers::Outliers;
use tool::rivals;
use tool::screen::Screen;
use tool::solve::Host;
use tool::synthetic::{BUILT_IN, Truth};
use tool::verdict::of_rivals;
use tool::views::{MOST_SCORED, Plate, View};

/// What a search with these options, as lines of a file, says of a plate; of few tilts where it types none.
fn answered(plate: &Plate, options: &str) -> (Finished, Winner, Judged) {
    let few = "tilts-x -2deg,-1deg,0\ntilts-y -1deg,0\nrounds 5\nstep 0.5deg\n";
    let few = if options.contains("tilts-x") { "" } else { few };
    let choices = Choices::parse(&format!("{few}{options}")).unwrap();
    let from = (Views::BuiltIn, "drawn views".to_owned());
    let case = Case::new(plate.clone(), from, &choices, &mut Screen::silent()).unwrap();
    case.answer().unwrap()
}

/// The codes of what speaks against the result.
fn codes(judged: &Judged) -> Vec<&'static str> {
    judged.against.iter().map(|point| point.code).collect()
}

fn radians(x: f64, y: f64) -> [f64; 2] {
    [x, y].map(f64::to_radians)
}

fn truth(x: f64, y: f64) -> Truth {
    let [tilt_x, tilt_y] = radians(x, y);
    Truth { sensor: ScheimpflugParams { tilt_x, tilt_y }, ..BUILT_IN }
}

/// Whether the lean lies within its bounds of the true one.
fn covers(judged: &Judged, truth: [f64; 2]) -> bool {
    let (lean, bounds) = (judged.open.lean.unwrap(), judged.open.lean_total().unwrap());
    (0..2).all(|i| (lean[i] - truth[i]).abs() <= bounds[i])
}

/// The result is good, and the lean within its bounds.
#[track_caller]
fn assert_good(plate: &Plate, options: &str, truth: [f64; 2]) -> Judged {
    let (_, _, judged) = answered(plate, options);
    assert!(judged.against.is_empty(), "{:?}", judged.against);
    assert!(covers(&judged, truth), "{:?}", judged.open);
    judged
}

const BUILT_IN_TILTS: [f64; 2] = [-0.020943951023931952, -0.006981317007977318];

/// Each pixel as a lens with these k1 and p1 puts it, about the centre, whatever the tilt.
fn bent(mut plate: Plate, [k1, p1]: [f64; 2]) -> Plate {
    let k = BUILT_IN.k;
    for pixel in plate.views.iter_mut().flat_map(|view| &mut view.pixels) {
        let [x, y] = [(pixel.x - k.cx) / k.fx, (pixel.y - k.cy) / k.fy];
        let r2 = x * x + y * y;
        pixel.x = k.fx * (x * (1.0 + k1 * r2) + 2.0 * p1 * x * y) + k.cx;
        pixel.y = k.fy * (y * (1.0 + k1 * r2) + p1 * (r2 + 2.0 * y * y)) + k.cy;
    }
    plate
}

#[test]
fn a_lens_that_turns_a_lean_to_the_other_side_is_told() {
    for (tilt, p1) in [(-0.15, 0.002), (-1.2, 0.008)] {
        let plate = bent(truth(tilt, 0.0).plate(), [0.0, p1]);
        let (_, _, judged) = answered(&plate, "");
        assert_eq!(codes(&judged), ["lens"], "{:?}", judged.against);
        // Stated, or solved for, it isn't in the way.
        let named = format!("lens 0,0,{p1},0,0");
        for options in [&named[..], "tangential"] {
            let judged = assert_good(&plate, options, radians(tilt, 0.0));
            let off = judged.open.lean.unwrap()[0] - tilt.to_radians();
            assert!(off.abs() < 0.05_f64.to_radians(), "{options}: {off}");
        }
    }
}

#[test]
fn a_lens_that_no_test_finds_lies_within_the_bounds() {
    for p1 in [-0.001, -0.0005, 0.0005, 0.001] {
        let plate = bent(Truth { noise: 0.4, ..BUILT_IN }.plate(), [0.0, p1]);
        let open = assert_good(&plate, "", BUILT_IN_TILTS).open;
        // Stated to be exact, it is left out of the bounds.
        let exact = answered(&plate, "lens exact").2.open;
        assert!(exact.lens.is_none() && open.lens.is_some());
        assert!(exact.lean_total().unwrap()[0] < 0.9 * open.lean_total().unwrap()[0]);
    }
}

/// A stated lens bends the ideal points before the tilt: drawn so, it is taken off exactly.
#[test]
fn a_stated_lens_is_taken_off_before_the_tilt() {
    let lens = jinnychair::BrownConrady5 { k1: -0.2, k2: 0.05, k3: 0.01, p1: 0.003, p2: -0.002 };
    for noise in [0.0, 0.05] {
        let plate = Truth { noise, ..BUILT_IN }.plate_through(&lens);
        let named = "lens -0.2,0.05,0.003,-0.002,0.01";
        let judged = assert_good(&plate, named, BUILT_IN_TILTS);
        let off = judged.open.lean.unwrap()[0] - BUILT_IN_TILTS[0];
        assert!(off.abs() < if noise == 0.0 { 1e-9 } else { 5e-4 }, "{noise}: {off}");
        let (_, _, judged) = answered(&plate, "lens exact");
        assert_eq!(codes(&judged)[0], "lens", "{:?}", judged.against);
    }
}

#[test]
fn u_and_v_exchanged_on_a_square_sensor_are_told() {
    let k = FxFyCxCy { fx: 1420.0, fy: 1415.0, cx: 512.0, cy: 512.0 };
    let mut plate = Truth { k, ..BUILT_IN }.plate();
    assert_good(&plate, "", BUILT_IN_TILTS);
    for pixel in plate.views.iter_mut().flat_map(|view| &mut view.pixels) {
        (pixel.x, pixel.y) = (pixel.y, pixel.x);
    }
    assert_eq!(codes(&answered(&plate, "").2), ["mirrored"]);
}

#[test]
fn pixels_counted_upwards_and_left_handed_plates_are_told() {
    let mut plate = BUILT_IN.plate();
    for pixel in plate.views.iter_mut().flat_map(|view| &mut view.pixels) {
        pixel.y = 940.0 - pixel.y;
    }
    assert_eq!(codes(&answered(&plate, "").2), ["mirrored"]);
    // A plate whose y axis goes up is as good as one whose axis goes down, if that is said.
    let mut plate = BUILT_IN.plate();
    plate.views.iter_mut().flat_map(|view| &mut view.board).for_each(|place| place.y = -place.y);
    assert_eq!(codes(&answered(&plate, "").2), ["mirrored"]);
    assert_good(&plate, "mirrored", BUILT_IN_TILTS);
    assert_eq!(codes(&answered(&BUILT_IN.plate(), "mirrored").2), ["not-mirrored"]);
}

#[test]
fn distortion_taken_off_around_a_wrong_centre_is_told_or_covered() {
    for by in [5.0, 20.0, 60.0] {
        let mut plate = bent(BUILT_IN.plate(), [-0.2, 0.0]);
        let k = BUILT_IN.k;
        for pixel in plate.views.iter_mut().flat_map(|view| &mut view.pixels) {
            let [x, y] = [(pixel.x - k.cx - by) / k.fx, (pixel.y - k.cy) / k.fy];
            let lens = jinnychair::BrownConrady5 { k1: -0.2, ..Default::default() };
            let Pt2 { x, y } = lens.undistorted(Pt2 { x, y });
            (pixel.x, pixel.y) = (k.fx * x + k.cx + by, k.fy * y + k.cy);
        }
        let (_, _, judged) = answered(&plate, "");
        let is_told = codes(&judged).iter().any(|code| ["lens", "neighbours"].contains(code));
        assert!(is_told || covers(&judged, BUILT_IN_TILTS), "{by}: {:?}", judged.open);
        assert!(is_told || by < 20.0, "{by}: {:?}", judged.against);
    }
}

#[test]
fn copies_of_one_view_leave_the_tilts_open() {
    let one = BUILT_IN.plate().views.remove(3);
    let plate = Plate { views: vec![one; 14], ..BUILT_IN.plate() };
    let (_, _, judged) = answered(&plate, "");
    assert_eq!(codes(&judged).last(), Some(&"noise"), "{:?}", judged.against);
    // Of three views that are repeated the bounds are those of three.
    let three = Plate { views: BUILT_IN.plate().views[3..6].to_vec(), ..BUILT_IN.plate() };
    let mut many = three.clone();
    (0..4).for_each(|_| many.views.extend(three.views.clone()));
    let bounds = |plate: &Plate| answered(plate, "").2.open.lean_total().unwrap();
    let (three, many) = (bounds(&three), bounds(&many));
    assert!((0..2).all(|i| (many[i] / three[i] - 1.0).abs() < 1e-3), "{three:?} {many:?}");
}

#[test]
fn three_noisy_views_are_covered_or_doubtful_by_noise() {
    let all = Truth { noise: 0.3, ..BUILT_IN }.plate();
    for first in 0..12 {
        let plate = Plate { views: all.views[first..first + 3].to_vec(), ..all.clone() };
        let (_, _, judged) = answered(&plate, "");
        let is_noise = codes(&judged).iter().all(|code| *code == "noise");
        assert!(is_noise, "{first}: {:?}", judged.against);
        assert!(covers(&judged, BUILT_IN_TILTS), "{first}: {:?}", judged.open);
    }
}

#[test]
fn the_verdict_is_the_same_wherever_the_plates_origin_is_and_whatever_its_unit() {
    for (by, unit) in [([1000.0, 1000.0], 1.0), ([1000.0, 0.0], 1.0), ([-90.0, -60.0], 25.4)] {
        let mut plate = BUILT_IN.plate();
        for place in plate.views.iter_mut().flat_map(|view| &mut view.board) {
            *place = Pt2 { x: (place.x + by[0]) / unit, y: (place.y + by[1]) / unit };
        }
        assert_good(&plate, "", BUILT_IN_TILTS);
    }
}

/// The built-in plate's poses, so much farther away from a camera that sees it so much larger.
fn far(zoom: f64, noise: f64) -> (Plate, [f64; 2]) {
    let k = FxFyCxCy { fx: 1420.0 * zoom, fy: 1415.0 * zoom, ..BUILT_IN.k };
    let held = |i: usize| {
        let (sine, cosine) = (2.4 * i as f64).sin_cos();
        [33.0 * sine, 33.0 * cosine, 6.0 * cosine, 5.0 * sine, (440.0 + 3.0 * i as f64) * zoom]
    };
    let held: Vec<_> = (0..12).map(held).collect();
    (Truth { k, noise, ..BUILT_IN }.plate_held(&held), BUILT_IN_TILTS)
}

#[test]
fn a_long_focal_length_is_no_distortion() {
    for zoom in [10.0, 35.0] {
        let (plate, truth) = far(zoom, 0.02);
        let (_, _, judged) = answered(&plate, "");
        let is_fine = |code: &&str| ["noise", "outermost", "out-of-reach"].contains(code);
        assert!(codes(&judged).iter().all(is_fine), "{zoom}: {:?}", judged.against);
        assert!(covers(&judged, truth), "{zoom}: {:?}", judged.open);
    }
}

#[test]
fn more_dots_than_a_tilt_is_scored_by_are_all_solved_for() {
    let held = (0..20).map(|i| {
        let (sine, cosine) = (2.4 * f64::from(i)).sin_cos();
        [30.0 * sine, 30.0 * cosine, 8.0 * cosine, 6.0 * sine, 440.0 + 2.0 * f64::from(i)]
    });
    let held: Vec<_> = held.collect();
    let plate = BUILT_IN.plate_held(&held);
    let judged = assert_good(&plate, "", BUILT_IN_TILTS);
    assert_eq!(judged.fit.counted(), 1400);
    assert_eq!(judged.lean.unwrap().plain.freedom, 2 * 1400 - 6 * 20 - 4);
    let (finished, ..) = answered(&plate, "min-counted 100");
    assert!(finished.tried.iter().all(|one| one.dots.unwrap().all == 1024));
}

#[test]
fn a_view_with_its_dots_transposed_is_named_with_the_lean_without_it() {
    let mut plate = BUILT_IN.plate();
    let pixels = plate.views[8].pixels.clone();
    // Ten by seven dots, taken as seven by ten.
    for (i, pixel) in plate.views[8].pixels.iter_mut().enumerate() {
        *pixel = pixels[i % 7 * 10 + i / 7];
    }
    let (_, _, judged) = answered(&plate, "");
    assert_eq!(codes(&judged).last(), Some(&"view"), "{:?}", judged.against);
    let found: Outliers = judged.outliers.unwrap();
    let without = found.view.unwrap();
    assert_eq!(without.view, 8);
    assert!((0..2).all(|i| (without.tilts[i] - BUILT_IN_TILTS[i]).abs() < 5e-4), "{without:?}");
}

#[test]
fn two_wrong_dots_are_named_with_the_lean_without_them() {
    let mut plate = BUILT_IN.plate();
    plate.views[4].pixels[52].x += 1.0;
    plate.views[11].pixels[7].y -= 40.0;
    let (_, _, judged) = answered(&plate, "");
    assert_eq!(codes(&judged)[0], "stray-dot", "{:?}", judged.against);
    let found = judged.outliers.unwrap();
    let dots: Vec<_> = found.dots.iter().map(|dot| (dot.view, dot.place)).collect();
    assert_eq!(dots, [(11, plate.views[11].board[7]), (4, plate.views[4].board[52])]);
    let lean = found.rest.unwrap().1.tilts();
    assert!((0..2).all(|i| (lean[i] - BUILT_IN_TILTS[i]).abs() < 5e-4), "{lean:?}");
}

#[test]
fn a_plate_that_is_not_flat_is_told() {
    // Its places bulge by a fifth of a millimetre, as if it were 180 mm by 120 mm of bent card.
    let mut plate = BUILT_IN.plate();
    for place in plate.views.iter_mut().flat_map(|view| &mut view.board) {
        let [x, y] = [place.x / 90.0 - 1.0, place.y / 60.0 - 1.0];
        place.x += 0.1 * (1.0 - x * x) * y * y * y;
        place.y += 0.1 * (3.0 * x).sin();
    }
    let (_, _, judged) = answered(&plate, "");
    assert!(codes(&judged).contains(&"neighbours"), "{:?}", judged.against);
}

#[test]
fn views_of_two_zooms_are_told() {
    let k = FxFyCxCy { fx: 1430.0, fy: 1425.0, ..BUILT_IN.k };
    let (mut plate, other) = (BUILT_IN.plate(), Truth { k, ..BUILT_IN }.plate());
    plate.views[7..].clone_from_slice(&other.views[7..]);
    let (_, _, judged) = answered(&plate, "");
    let codes = codes(&judged);
    assert!(codes.iter().any(|code| ["misfit", "lens", "view"].contains(code)), "{codes:?}");
}

#[test]
fn two_centres_that_disagree_are_told_with_what_that_is_worth() {
    let mut plate = BUILT_IN.plate();
    plate.centre = Some([660.0, 482.0]);
    let (_, _, judged) = answered(&plate, "centre 655 470");
    assert_eq!(codes(&judged), ["two-centres"]);
    let what = &judged.against[0].what;
    let worth = "655 470 is held, and the file has 660 482, by which the lean would be 0.486° -0.202° beside this one";
    assert!(what.contains(worth), "{what}");
    // Held, it moves the lean by that.
    let (_, _, other) = answered(&plate, "");
    let (here, there) = (judged.open.lean.unwrap(), other.open.lean.unwrap());
    let moved = [0, 1].map(|i| (there[i] - here[i]).to_degrees());
    assert!((moved[0] - 0.486).abs() < 2e-3 && (moved[1] + 0.202).abs() < 2e-3, "{moved:?}");
    // A tolerance that has both is said to be enough.
    assert_good(&plate, "centre 655 470\ncentre-within 13", BUILT_IN_TILTS);
}

#[test]
fn without_noise_rounding_lies_within_the_bounds() {
    for [x, y] in [[-1.2, -0.4], [0.3, 0.2], [-1.9, -0.9]] {
        let plate = Truth { noise: 0.0, ..truth(x, y) }.plate();
        let judged = assert_good(&plate, "lens exact", radians(x, y));
        let [x, y] = judged.open.lean_total().unwrap();
        assert!(x < 1e-8 && y < 1e-8, "{x} {y}");
    }
}

/// The numbers of the tilts that fit as well as the lean, elsewhere.
fn rivals_of(plate: &Plate, finished: &Finished, judged: &Judged) -> Vec<usize> {
    let host = Host::new(plate.clone()).unwrap();
    let rivals = rivals::of(&host, finished, &judged.fit, judged.lean.as_ref().unwrap());
    rivals.iter().map(|one| one.number).collect()
}

/// A tilt elsewhere whose errors are no larger than chance makes them.
#[test]
fn another_valley_is_told() {
    let plate = BUILT_IN.plate();
    let (mut finished, _, judged) = answered(&plate, "");
    let rivals = |finished: &Finished| rivals_of(&plate, finished, &judged);
    assert_eq!(rivals(&finished), []);
    // Scored by a tenth of the dots, neighbours of the last step can't be distinguished, and are no other valley.
    let mut by_few = finished.clone();
    for one in &mut by_few.tried {
        one.dots.as_mut().unwrap().counted = 98;
    }
    assert_eq!(rivals(&by_few), []);
    let rms = finished.tried[0].scored.unwrap().rms;
    finished.tried[3].scored.as_mut().unwrap().rms = rms;
    assert_eq!(rivals(&finished), [3]);
    by_few.tried[3].scored.as_mut().unwrap().rms = rms;
    assert_eq!(rivals(&by_few), [3]);
    // Views that are repeated change nothing.
    let twice = Plate { views: [&plate.views[..], &plate.views[..]].concat(), ..plate.clone() };
    let (mut doubled, _, judged) = answered(&twice, "min-counted 100");
    assert_eq!(rivals_of(&twice, &doubled, &judged), []);
    doubled.tried[3].scored.as_mut().unwrap().rms = doubled.tried[0].scored.unwrap().rms;
    assert_eq!(rivals_of(&twice, &doubled, &judged), [3]);
    let told = of_rivals(&[&finished.tried[3]]).unwrap().what;
    assert!(
        told.starts_with("1 other tilts fit the views as well") && told.contains("no. 3 at "),
        "{told}"
    );
}

/// Eight views, each of as many dots as ten of the built-in plate, with noise of their own; another one for each number.
fn dense(number: usize) -> Plate {
    let held = |i: usize| {
        let (sine, cosine) = (2.4 * (i / 10) as f64).sin_cos();
        [30.0 * sine, 30.0 * cosine, 8.0 * cosine, 6.0 * sine, 440.0]
    };
    let before = (0..number).map(|_| held(0));
    let all = BUILT_IN.plate_held(&before.chain((0..80).map(held)).collect::<Vec<_>>());
    let views = all.views[number..].chunks(10).map(|same| View {
        board: same.iter().flat_map(|view| view.board.clone()).collect(),
        pixels: same.iter().flat_map(|view| view.pixels.clone()).collect(),
        name: String::new(),
    });
    Plate { centre: all.centre, views: views.collect() }
}

/// By chance the squares of the scored dots are small where those of all dots aren't.
#[test]
fn chance_in_the_scored_dots_is_no_other_valley() {
    for number in [3, 8, 33] {
        let plate = dense(number);
        let host = Host::new(plate.clone()).unwrap();
        let seed = Seed { reference_k: host.base(), sensor: BUILT_IN.sensor };
        let lean = Lean::new(&host, &seed, Lens::Open).unwrap();
        // Beside the lean, just so far that the scored dots' share of its ± excludes a tilt.
        let share = MOST_SCORED as f64 / plate.dots() as f64;
        let typed = [0, 1].map(|i| {
            let middle = lean.tilts();
            let mut beside = middle;
            beside[i] += 1e-3;
            let by = 1e-3 * (14.5 / share / lean.plain.distance(middle, beside).unwrap()).sqrt();
            [-by, 0.0, by].map(|by| format!("{}rad", middle[i] + by)).join(",")
        });
        let [x, y] = typed;
        let options = format!("no-decomposition\ntilts-x {x}\ntilts-y {y}\nrounds 0");
        assert_good(&plate, &options, BUILT_IN_TILTS);
    }
}

/// A winner that lies farther from the lean than the search explains.
#[test]
fn a_winner_far_from_the_lean_is_told() {
    let options = "tilts-x 6deg,7deg\ntilts-y 0\nno-decomposition\nrounds 2\nstep 0.1deg";
    let (_, winner, judged) = answered(&BUILT_IN.plate(), options);
    assert!(codes(&judged).contains(&"off-the-lean"), "{:?}", judged.against);
    // Its own bound says how far it lies off.
    let [x, _] = judged.open.winner_total();
    assert!((winner.sensor.tilt_x - BUILT_IN_TILTS[0]).abs() <= x);
    assert!(covers(&judged, BUILT_IN_TILTS));
}
