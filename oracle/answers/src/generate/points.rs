//! Cases of the operations on lists of points.

use super::values::{Draw, Style, edge, near};
use super::{Family, RANDOM_CASES, with_list};
use random::Random;
use words::float_words;

pub fn families() -> Vec<Family> {
    let family = |operation, fixed, draw| Family { operation, fixed, random: RANDOM_CASES, draw };
    vec![
        family("untilt_points", untilted_limits, untilt_points),
        family("ideal_points", ideal_limits, ideal_points),
        family("normalize_points_2d", normalized_limits, normalize_points_2d),
        family("points_are_collinear", lines_at_thresholds, points_are_collinear),
        family("design_rows", rows_at_limits, design_rows),
        family("observed_pixel_center", fixed_centers, observed_pixel_center),
    ]
}

/// Cases of the design rows whose points are hardly spread, far away or overflow; for the
/// differential runs alone.
pub fn at_the_spread() -> Family {
    Family { operation: "design_rows", fixed: Vec::new, random: 0, draw: rows_at_the_spread }
}

const CAMERA: [f64; 4] = [800.0, 790.0, 320.5, 239.25];
const DISTORTION: [f64; 5] = [-0.21, 0.043, -0.002, 0.001, -0.0007];
const TILT: [f64; 4] = [0.28, 0.96, -0.6, 0.8];
const SINGULAR: [f64; 4] = [1.0, 0.0, 0.0, 1.0];

/// Points of a bent grid, none of them repeated, in the image.
fn grid(count: usize) -> Vec<f64> {
    let point = |i: usize| {
        let (column, row) = ((i % 20) as f64, (i / 20) as f64);
        [10.0 + 31.0 * column + 0.125 * row * row, 7.0 + 23.5 * row + 0.0625 * column]
    };
    (0..count).flat_map(point).collect()
}

/// How many points a random list has: few, so that the files stay short.
fn few(random: &mut Random) -> usize {
    random.pick(&[0, 1, 1, 1, 2, 2, 2, 3, 3, 3, 4, 4, 5, 6, 12])
}

fn with_iterations(
    list: &[f64],
    tilt: [f64; 4],
    camera: [f64; 4],
    k: [f64; 5],
    n: u64,
) -> Vec<u64> {
    let mut words = float_words(&[&camera[..], &k].concat());
    words.push(n);
    words.extend(with_list(&tilt, list));
    words
}

fn untilted_limits() -> Vec<Vec<u64>> {
    let case = |tilt: [f64; 4], list: &[f64]| with_list(&[CAMERA, tilt].concat(), list);
    vec![
        case(TILT, &grid(399)),
        case(TILT, &grid(400)),
        case(TILT, &grid(401)),
        case(TILT, &[1.0]),
        case(TILT, &[]),
        case(SINGULAR, &[]),
        case(SINGULAR, &[1.0, 2.0]),
        case(SINGULAR, &[1.0, 2.0, 3.0]),
    ]
}

fn untilt_points(random: &mut Random) -> Vec<u64> {
    let count = few(random).min(4);
    let mut draw = Draw::new(random);
    let floats = [draw.intrinsics(), draw.tilt()].concat();
    with_list(&floats, &draw.points(count, 640.0))
}

fn ideal_limits() -> Vec<Vec<u64>> {
    let case = |tilt: [f64; 4], list: &[f64]| with_iterations(list, tilt, CAMERA, DISTORTION, 0);
    vec![
        case(TILT, &grid(399)),
        case(TILT, &grid(400)),
        case(TILT, &grid(401)),
        case(TILT, &[1.0]),
        case(TILT, &[]),
        case(SINGULAR, &[]),
        case(SINGULAR, &[1.0, 2.0, 3.0]),
    ]
}

fn ideal_points(random: &mut Random) -> Vec<u64> {
    let count = few(random).min(4);
    let mut draw = Draw::new(random);
    let (camera, coefficients, tilt) = (draw.intrinsics(), draw.distortion(), draw.tilt());
    let iterations = draw.random.pick(&[0, 0, 1, 3, 8, 20]);
    with_iterations(&draw.points(count, 640.0), tilt, camera, coefficients, iterations)
}

/// Limits of the length, and spreads at, below and above the least one.
fn normalized_limits() -> Vec<Vec<u64>> {
    let apart = |distance: f64| with_list(&[], &[-distance, 0.0, distance, 0.0]);
    let epsilon = f64::EPSILON;
    vec![
        with_list(&[], &grid(399)),
        with_list(&[], &grid(400)),
        with_list(&[], &grid(401)),
        with_list(&[], &[1.0, 2.0, 3.0]),
        with_list(&[], &[]),
        with_list(&[], &[5.0, 7.0]),
        with_list(&[], &[5.0, 7.0, 5.0, 7.0]),
        apart(epsilon),
        apart(epsilon * (1.0 + epsilon)),
        apart(epsilon / 2.0),
        apart(f64::MAX),
        apart(1e200),
        apart(f64::INFINITY),
        apart(f64::NAN),
        with_list(&[], &[-0.0, -0.0, -0.0, 1.0]),
    ]
}

fn normalize_points_2d(random: &mut Random) -> Vec<u64> {
    let count = few(random);
    let mut draw = Draw::new(random);
    let mut list = draw.points(count, 640.0);
    if draw.random.once_in(6) {
        squeeze(&mut list, draw.random);
    }
    with_list(&[], &list)
}

/// Brings all points to, or very near to, the first one.
fn squeeze(list: &mut [f64], random: &mut Random) {
    let scale = random.pick(&[0.0, 1e-18, 1e-16, 1e-9, 1e-7]);
    let Some(&[x, y]) = list.first_chunk() else { return };
    for point in list.chunks_exact_mut(2) {
        point[0] = x + scale * (point[0] - x);
        point[1] = y + scale * (point[1] - y);
    }
}

/// Distances around 1e-9 and cross products around 1e-6, each from below to above.
fn lines_at_thresholds() -> Vec<Vec<u64>> {
    let mut lists: Vec<Vec<f64>> = vec![
        vec![],
        vec![1.0, 2.0],
        vec![1.0, 2.0, 1.0, 2.0],
        vec![1.0, 2.0, 1.0, 2.0, 1.0, 2.0],
        vec![0.0, 0.0, 0.0, 0.0, 1.0, 0.0, 0.0, 1.0],
        grid(400),
        (0..401).flat_map(|i| [f64::from(i), 2.0 * f64::from(i)]).collect(),
        // The root of the sum of squares is the limit; `hypot` is above it.
        vec![0.0, 0.0, 10_000.0, 0.0, 1.87e-10, 9.823599136772634e-10],
    ];
    for offset in -2_i64..=2 {
        let around = |value: f64| f64::from_bits((value.to_bits() as i64 + offset) as u64);
        lists.push(vec![0.0, 0.0, 1.0, 0.0, 5.0, around(1e-6)]);
        lists.push(vec![0.0, 0.0, 0.0, around(1e-9), around(1e-9), 0.0, 3.0, 4.0]);
        lists.push(vec![0.0, 0.0, around(1e-9), 0.0, 0.0, 1e4]);
    }
    lists.iter().map(|list| with_list(&[], list)).collect()
}

/// Points drawn at random, on a line, or near to one.
fn points_are_collinear(random: &mut Random) -> Vec<u64> {
    let count = few(random);
    let mut draw = Draw::new(random);
    let list = match draw.random.below(3) {
        0 => draw.points(count, 10.0),
        _ => on_a_line(&mut draw, count),
    };
    with_list(&[], &list)
}

/// Points along a line, some repeated, perhaps one of them off the line by little.
fn on_a_line(draw: &mut Draw, count: usize) -> Vec<f64> {
    let [x, y, dx, dy] = draw.values(4.0);
    let mut list = Vec::with_capacity(2 * count);
    for _ in 0..count {
        let along = draw.random.pick(&[0.0, 0.0, 1.0, -1.0, 2.0, 0.5, 3.25, 1e-9, 1e-10]);
        list.extend([x + along * dx, y + along * dy]);
    }
    if count > 0 && draw.random.once_in(2) {
        let place = 2 * draw.random.below(count) + 1;
        list[place] += draw.random.pick(&[1e-6, -1e-6, 2.5e-7, -1e-7, 1e-9, 1e-3]);
    }
    if count > 0 && draw.random.once_in(10) {
        let place = draw.random.below(2 * count);
        list[place] = edge(draw.random);
    }
    list
}

fn two_lists(source: &[f64], destination: &[f64]) -> Vec<u64> {
    [with_list(&[], source), with_list(&[], destination)].concat()
}

/// Limits of the lengths, and each refusal together with those that come before and after it.
fn rows_at_limits() -> Vec<Vec<u64>> {
    let line = [0.0, 0.0, 1.0, 1.0, 2.0, 2.0, 3.0, 3.0];
    let four = grid(4);
    let bent = [0.0, 0.0, 1.0, 0.0, 0.0, 1.0, 5.0, 7.0];
    let mut not_finite = bent;
    not_finite[7] = f64::INFINITY;
    let shifted: Vec<f64> = grid(400).iter().map(|x| 0.5 * x + 3.0).collect();
    vec![
        two_lists(&grid(399), &shifted[..798]),
        two_lists(&grid(400), &shifted),
        two_lists(&grid(401), &bent),
        two_lists(&bent, &grid(401)),
        two_lists(&bent[..7], &not_finite),
        two_lists(&bent, &bent[..7]),
        two_lists(&not_finite, &not_finite),
        two_lists(&bent, &not_finite),
        two_lists(&not_finite, &[]),
        two_lists(&bent[..6], &not_finite),
        two_lists(&bent[..6], &bent),
        two_lists(&bent[..6], &bent[..6]),
        two_lists(&bent, &bent[..6]),
        two_lists(&line, &bent[..6]),
        two_lists(&line, &line),
        two_lists(&bent, &line),
        two_lists(&four, &bent),
        two_lists(&[], &[]),
    ]
}

/// Mostly four or five points in general position; some lists that are refused.
fn design_rows(random: &mut Random) -> Vec<u64> {
    let count = if random.once_in(20) { 5 + random.below(3) } else { 4 };
    let mut draw = Draw::new(random);
    if matches!(draw.style, Style::Wide | Style::Bits) && draw.random.once_in(2) {
        draw.style = Style::Ordinary;
    }
    let mut source = draw.points(count, 0.25);
    let mut destination = draw.points(count, 640.0);
    match draw.random.below(7) {
        0 => source = on_a_line(&mut draw, count),
        1 => destination = on_a_line(&mut draw, count),
        2 => drop(source.drain(..2)),
        3 => squeeze(&mut destination, draw.random),
        _ => {}
    }
    two_lists(&source, &destination)
}

/// Four points or a few more, seldom up to 400, each list of a kind of its own.
fn rows_at_the_spread(random: &mut Random) -> Vec<u64> {
    let count = if random.once_in(200) { 390 + random.below(11) } else { 4 + random.below(4) };
    let source = hardly_spread(random, count);
    two_lists(&source, &hardly_spread(random, count))
}

/// Points of which two span a cross product around 1e-6 with the first, the others at the first
/// one: near the origin, at an offset that rounds their differences, or scaled until sums overflow.
fn hardly_spread(random: &mut Random, count: usize) -> Vec<f64> {
    let length = random.pick(&[1e-3, 1.1e-3, 1e-6, 1.0, 1e3, 1.1e-9, 1e6]) * (1.0 + random.unit());
    let cross = 1e-6 * random.pick(&[1.0, 1.0 + f64::EPSILON, 1.0 + 1e-9, 1.001, 2.0, 0.999]);
    let width = cross / length;
    let free = random.within(3.0);
    let (sin, cos) = f64::sin_cos(random.pick(&[0.0, 0.0, 0.5, 1.0, free]));
    let offset = random.pick(&[0.0, 0.0, 1.0, 1e3, 1e9, 1e15, 1e160, 1e300]);
    let scale = random.pick(&[1.0, 1.0, 1.0, 1e3, 1e150, 1e155, 1e290, 1e305, 1e308]);
    let (x, y) = (offset * random.within(1.0), offset * random.within(1.0));
    let (second, third) = (random.below(count - 1) + 1, random.below(count - 1) + 1);
    let point = |i: usize| {
        let along = if i == second { length } else { 0.0 };
        let across = if i == third { width } else { 0.0 };
        let (dx, dy) = (cos * along - sin * across, sin * along + cos * across);
        [dx, dy].map(|d| if scale == 1.0 { d } else { d / length.max(width) * scale })
    };
    let points = (0..count).map(point);
    points.flat_map(|[dx, dy]| [x + dx, y + dy].map(|v| v.clamp(f64::MIN, f64::MAX))).collect()
}

/// Values worked out by hand, no finite point, and zeros of two signs in both orders.
fn fixed_centers() -> Vec<Vec<u64>> {
    let (infinity, nan) = (f64::INFINITY, f64::NAN);
    let lists: [&[f64]; 12] = [
        &[2.0, 4.0, 10.0, 6.0],
        &[-2.0, 4.0, 10.0, 6.0],
        &[],
        &[nan, 1.0],
        &[1.0, infinity],
        &[nan, 1.0, 3.0, 5.0],
        &[0.0, 0.0, -0.0, -0.0],
        &[-0.0, -0.0, 0.0, 0.0],
        &[-0.0, 0.0],
        &[-1.0, 0.0, -0.0, -0.0],
        &[f64::MAX, 1.0, f64::MIN, 1.0],
        &[f64::MAX, f64::MAX, -1.0, f64::MAX],
    ];
    let mut cases: Vec<Vec<u64>> = lists.iter().map(|list| with_list(&[], list)).collect();
    cases.push(with_list(&[], &grid(401)));
    cases
}

fn observed_pixel_center(random: &mut Random) -> Vec<u64> {
    let count = few(random).min(6);
    let mut draw = Draw::new(random);
    let mut list: Vec<f64> = (0..2 * count).map(|_| draw.pixel()).collect();
    if count > 0 && draw.random.once_in(4) {
        let place = draw.random.below(2 * count);
        list[place] = near(draw.random, 1.0) * draw.random.pick(&[0.0, -1.0, 1.0]);
    }
    with_list(&[], &list)
}
