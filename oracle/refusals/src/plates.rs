//! Plates with a known answer (docs/SPECIFICATION.md, 3.16): which cameras get six numbers, and what the closed form gives back from
//! these: the camera itself, in which a zero is stored as 0, whichever its sign. The six numbers aren't stored: what is asked of them
//! is that the camera comes back.

use crate::Case;
use std::f64::{INFINITY, NAN, NEG_INFINITY};
use words::float_words;

/// Focal lengths and centre as whole numbers, which any power from 1 to 256 may multiply.
const WHOLE: [[i32; 4]; 16] = [
    [1, 1, 0, 0],
    [1, 1, 1, -1],
    [1, 256, -256, 256],
    [256, 1, 256, -256],
    [256, 256, 256, 256],
    [256, 256, -256, -256],
    [2, 2, 3, 1],
    [200, 202, 160, -120],
    [255, 254, -253, 252],
    [254, 255, 0, -255],
    [128, 64, 32, -16],
    [3, 5, 7, -11],
    [100, 1, -256, 0],
    [17, 240, 0, 128],
    [243, 125, 49, 121],
    [251, 241, -239, -233],
];

/// No power puts all four in their ranges.
const REFUSED: [[f64; 4]; 40] = [
    // each number is in the range of some power, and no power is that of all
    [512.0, 1.0, 0.0, 0.0],
    [1.0, 512.0, 0.0, 0.0],
    [1.0, 1.0, 512.0, 0.0],
    [1.0, 1.0, 0.0, -512.0],
    [65536.0, 255.0, 0.0, 0.0],
    [65536.0, 65536.0, 128.0, 0.0],
    [1.0, 256.0, 0.0, 258.0],
    [255.0, 256.0, 258.0, 0.0],
    // beyond the whole numbers of every power
    [257.0, 257.0, 0.0, 0.0],
    [514.0, 514.0, 0.0, 0.0],
    [8.0, 8.0, 257.0, 0.0],
    [8.0, 8.0, 0.0, -257.0],
    [65792.0, 65792.0, 0.0, 0.0],
    [65537.0, 65536.0, 0.0, 0.0],
    [65536.0, 65536.0, -65792.0, 0.0],
    [131072.0, 131072.0, 0.0, 0.0],
    [65536.0, 65536.0, 0.0, 131072.0],
    [1e300, 1e300, 0.0, 0.0],
    [18446744073709551616.0, 8.0, 0.0, 0.0],
    // a focal length not above 0
    [0.0, 8.0, 0.0, 0.0],
    [8.0, 0.0, 0.0, 0.0],
    [-0.0, 8.0, 0.0, 0.0],
    [8.0, -8.0, 0.0, 0.0],
    [-8.0, 8.0, 0.0, 0.0],
    // fractions, also such as a division by 2 rounds to 0
    [0.5, 0.5, 0.0, 0.0],
    [800.5, 808.0, 0.0, 0.0],
    [8.0, 8.0, 0.5, 0.0],
    [8.0, 8.0, 5e-324, 0.0],
    [8.0, 8.0, 0.0, -5e-324],
    [5e-324, 5e-324, 0.0, 0.0],
    [8.0, 8.0, 2.2250738585072014e-308, 0.0],
    [65535.99999999999, 65536.0, 0.0, 0.0],
    // no numbers of pixels
    [NAN, 8.0, 0.0, 0.0],
    [8.0, NAN, 0.0, 0.0],
    [8.0, 8.0, NAN, 0.0],
    [8.0, 8.0, 0.0, NAN],
    [INFINITY, 8.0, 0.0, 0.0],
    [8.0, INFINITY, 0.0, 0.0],
    [8.0, 8.0, INFINITY, 0.0],
    [8.0, 8.0, 0.0, NEG_INFINITY],
];

/// The camera comes back; -0 is 0.
fn given(four: [f64; 4]) -> Case {
    let back = four.map(|x| if x == 0.0 { 0.0 } else { x });
    Case::new(float_words(&four), [vec![0], float_words(&back)].concat())
}

pub fn plates() -> Vec<Case> {
    let times = |power: u32| WHOLE.map(|four| given(four.map(|n| f64::from(n << power))));
    let mut cases: Vec<Case> = (0..=8).flat_map(times).collect();
    cases.extend([[8.0, 8.0, -0.0, 0.0], [8.0, 8.0, 1.0, -0.0], [8.0, 8.0, -1.0, -0.0]].map(given));
    cases.extend(REFUSED.map(|four| Case::new(float_words(&four), vec![34])));
    cases
}
