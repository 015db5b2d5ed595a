//! Refusals of the point maps, Normalise, Rows, Centre, the line test and the closed form, and the
//! tail of a destination on success.

use crate::{Case, lent, list};
use std::f64::consts::SQRT_2;
use words::float_words as floats;

const NAN: f64 = f64::NAN;

/// More than 400 points, in no one place and on no one line.
fn too_many() -> Vec<f64> {
    (0..802).map(|i| (i * i % 1009) as f64).collect()
}

/// A reply, then the destination: with the numbers written at its front, or as it was.
fn reply(number: u64, written: &[f64], room: usize) -> Vec<u64> {
    let tail = &lent(room)[written.len()..];
    [vec![number], floats(written), floats(tail)].concat()
}

// ---- point maps

/// No tilt; and the tilt whose determinant is 0.
const UPRIGHT: [f64; 4] = [0.0, 1.0, 0.0, 1.0];
const SINGULAR: [f64; 4] = [1.0, 0.0, 0.0, 1.0];

/// Points, tilt, length of the destination and number. A map with camera (1, 1, 0, 0), no
/// distortion and no tilt gives the points themselves.
fn map_cases() -> Vec<(Vec<f64>, [f64; 4], usize, u64)> {
    let two = vec![2.0, 4.0, 10.0, 6.0];
    let odd = vec![2.0, 4.0, 10.0];
    vec![
        (two.clone(), UPRIGHT, 4, 0),
        (two.clone(), UPRIGHT, 7, 0),
        (vec![], UPRIGHT, 0, 0),
        (vec![], UPRIGHT, 3, 0),
        (odd.clone(), UPRIGHT, 7, 17),
        (too_many(), UPRIGHT, 900, 17),
        (two.clone(), UPRIGHT, 3, 18),
        (two.clone(), UPRIGHT, 0, 18),
        (two.clone(), SINGULAR, 4, 15),
        (vec![], SINGULAR, 2, 15),
        // two refusals at once
        (odd.clone(), UPRIGHT, 2, 17),
        (too_many(), UPRIGHT, 801, 17),
        (odd, SINGULAR, 7, 17),
        (too_many(), SINGULAR, 900, 17),
        (two, SINGULAR, 3, 18),
    ]
}

fn map_case(lens: &[u64], case: &(Vec<f64>, [f64; 4], usize, u64)) -> Case {
    let (points, tilt, room, number) = case;
    let camera = floats(&[1.0, 1.0, 0.0, 0.0]);
    let input = [list(&lent(*room)), camera, lens.to_vec(), floats(tilt), list(points)].concat();
    let written: &[f64] = if *number == 0 { points } else { &[] };
    Case::new(input, reply(*number, written, *room))
}

pub fn untilt() -> Vec<Case> {
    map_cases().iter().map(|case| map_case(&[], case)).collect()
}

/// Five coefficients of 0 and the default number of iterations.
pub fn ideal() -> Vec<Case> {
    map_cases().iter().map(|case| map_case(&[0; 6], case)).collect()
}

// ---- Normalise

pub fn normalize() -> Vec<Case> {
    let two = [-1.0, 0.0, 1.0, 0.0];
    let moved = [-SQRT_2, 0.0, SQRT_2, 0.0];
    let case = |points: &[f64], room: usize, number: u64| {
        let written: &[f64] = if number == 0 { &moved } else { &[] };
        Case::new([list(&lent(room)), list(points)].concat(), reply(number, written, room))
    };
    vec![
        case(&two, 4, 0),
        case(&two, 9, 0),
        case(&[-1.0, 0.0, 1.0], 4, 17),
        case(&too_many(), 900, 17),
        case(&two, 3, 18),
        case(&[], 0, 19),
        case(&[], 4, 19),
        case(&[3.0, 4.0, 3.0, 4.0], 4, 19),
        case(&[0.0, 0.0, f64::EPSILON, 0.0], 4, 19),
        // two refusals at once
        case(&[-1.0, 0.0, 1.0], 2, 17),
        case(&too_many(), 801, 17),
        case(&[3.0], 4, 17),
        case(&[3.0; 802], 900, 17),
        case(&[3.0, 4.0, 3.0, 4.0], 3, 18),
    ]
}

// ---- Rows

/// Four points at distance 1 from their centre, the origin.
const SQUARE: [f64; 8] = [1.0, 0.0, 0.0, 1.0, -1.0, 0.0, 0.0, -1.0];
const LINE: [f64; 8] = [0.0, 0.0, 1.0, 1.0, 2.0, 2.0, 3.0, 3.0];

/// The rows of the square against itself. Both are moved by the root of 2 about the origin.
fn square_rows() -> Vec<f64> {
    let pair = |p: &[f64]| {
        let (x, y) = (p[0] * SQRT_2, p[1] * SQRT_2);
        let upper = [-x, -y, -1.0, 0.0, 0.0, 0.0, x * x, x * y, x];
        let lower = [0.0, 0.0, 0.0, -x, -y, -1.0, y * x, y * y, y];
        [upper, lower].concat()
    };
    SQUARE.chunks(2).flat_map(pair).collect()
}

/// The points with one more; with the last number changed.
fn one_more(points: &[f64]) -> Vec<f64> {
    [points, &[4.0, 4.0]].concat()
}

fn ending(points: &[f64], last: f64) -> Vec<f64> {
    [&points[..points.len() - 1], &[last]].concat()
}

/// Source, destination points, length of the destination and number, each refusal alone.
fn row_refusals() -> Vec<(Vec<f64>, Vec<f64>, usize, u64)> {
    let good = SQUARE.to_vec();
    let line = LINE.to_vec();
    vec![
        (SQUARE[..7].to_vec(), good.clone(), 80, 17),
        (too_many(), good.clone(), 7218, 17),
        (good.clone(), SQUARE[..7].to_vec(), 80, 17),
        (good.clone(), too_many(), 80, 17),
        (good.clone(), good.clone(), 71, 18),
        (ending(&SQUARE, NAN), good.clone(), 80, 20),
        (ending(&SQUARE, f64::INFINITY), good.clone(), 80, 20),
        (good.clone(), ending(&SQUARE, NAN), 80, 21),
        (good.clone(), ending(&SQUARE, f64::NEG_INFINITY), 80, 21),
        (SQUARE[..6].to_vec(), SQUARE[..6].to_vec(), 80, 22),
        (vec![], vec![], 0, 22),
        (good.clone(), one_more(&SQUARE), 80, 23),
        (one_more(&SQUARE), good.clone(), 90, 23),
        (line.clone(), good.clone(), 80, 24),
        (vec![3.0; 8], good.clone(), 80, 24),
        (good.clone(), line, 80, 25),
        (good, vec![3.0; 8], 80, 25),
    ]
}

/// The same where two hold at once: the one that is named first wins.
fn row_pairs() -> Vec<(Vec<f64>, Vec<f64>, usize, u64)> {
    let good = SQUARE.to_vec();
    let line = LINE.to_vec();
    let odd = SQUARE[..7].to_vec();
    let nan = ending(&SQUARE, NAN);
    let three = SQUARE[..6].to_vec();
    let long_line: Vec<f64> = (0..802).map(|i| f64::from(i / 2)).collect();
    vec![
        // 17
        (odd.clone(), good.clone(), 62, 17),
        (good.clone(), odd.clone(), 71, 17),
        (ending(&odd, NAN), good.clone(), 80, 17),
        (nan.clone(), odd.clone(), 80, 17),
        (odd.clone(), nan.clone(), 80, 17),
        (SQUARE[..5].to_vec(), three.clone(), 80, 17),
        (three.clone(), odd.clone(), 80, 17),
        (too_many(), too_many(), 80, 17),
        (long_line, good.clone(), 80, 17),
        (line.clone(), odd.clone(), 80, 17),
        (odd.clone(), line.clone(), 80, 17),
        // 18
        (nan.clone(), good.clone(), 71, 18),
        (good.clone(), nan.clone(), 71, 18),
        (three.clone(), three.clone(), 53, 18),
        (good.clone(), one_more(&SQUARE), 71, 18),
        (line.clone(), good.clone(), 71, 18),
        (good.clone(), line.clone(), 71, 18),
        // 20
        (nan.clone(), nan.clone(), 80, 20),
        (ending(&three, NAN), three.clone(), 80, 20),
        (nan.clone(), one_more(&SQUARE), 80, 20),
        (ending(&LINE, NAN), good.clone(), 80, 20),
        (nan.clone(), line.clone(), 80, 20),
        // 21
        (three.clone(), ending(&three, NAN), 80, 21),
        (good.clone(), ending(&one_more(&SQUARE), NAN), 80, 21),
        (line.clone(), nan, 80, 21),
        (good.clone(), ending(&LINE, NAN), 80, 21),
        // 22
        (three.clone(), good.clone(), 80, 22),
        (LINE[..6].to_vec(), three.clone(), 80, 22),
        (three, LINE[..6].to_vec(), 80, 22),
        // 23
        (one_more(&LINE), good.clone(), 90, 23),
        (good, one_more(&LINE), 80, 23),
        // 24
        (line.clone(), line, 80, 24),
    ]
}

fn row_case(case: &(Vec<f64>, Vec<f64>, usize, u64)) -> Case {
    let (source, destination, room, number) = case;
    let input = [list(&lent(*room)), list(source), list(destination)].concat();
    Case::new(input, reply(*number, &[], *room))
}

pub fn rows() -> Vec<Case> {
    let square = |room: usize| {
        let input = [list(&lent(room)), list(&SQUARE), list(&SQUARE)].concat();
        Case::new(input, reply(0, &square_rows(), room))
    };
    let mut cases = vec![square(72), square(80)];
    cases.extend(row_refusals().iter().map(row_case));
    cases.extend(row_pairs().iter().map(row_case));
    cases
}

// ---- lists of odd length; no camera

/// 17 at any number of points, and whatever the numbers are.
pub fn odd_lists() -> Vec<Case> {
    let lists = [vec![1.0], vec![1.0, 2.0, 3.0], vec![NAN; 5], vec![0.0; 801], vec![7.0; 4095]];
    lists.iter().map(|numbers| Case::new(list(numbers), vec![17])).collect()
}

pub fn conic() -> Vec<Case> {
    let six: [[f64; 6]; 13] = [
        [0.0; 6],
        [NAN; 6],
        // lambda is 0, or has the other sign than b11
        [1.0, 0.0, 1.0, 0.0, 0.0, 0.0],
        [-1.0, 0.0, -1.0, 0.0, 0.0, 0.0],
        [1.0, 0.0, 1.0, 0.0, 0.0, -1.0],
        [1.0, 0.0, 1.0, -3.0, -1.0, 10.0],
        // the 2 × 2 part is not definite enough
        [1.0, 0.0, 1e-6, 0.0, 0.0, 0.0],
        [1.0, 0.0, 1e-6, -3.0, -1.0, 14.0],
        [1.0, 0.0, 1e-6, 0.0, 0.0, 1.0],
        [1.0, 1.0, 1.0, 0.0, 0.0, 1.0],
        [1.0, 0.0, -1.0, 0.0, 0.0, 1.0],
        // b11 is too small
        [1e-12, 0.0, 1e-12, 0.0, 0.0, 1.0],
        [-1e-12, 0.0, -1e-12, 0.0, 0.0, -1.0],
    ];
    six.iter().map(|b| Case::new(floats(b), vec![16])).collect()
}
