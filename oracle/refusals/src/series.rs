//! Sine and cosine where the rules state the answer itself: 27, and a zero gives itself and exactly 1.

use crate::Case;
use words::float_words as floats;

fn refused() -> Vec<Case> {
    let beyond = [0.5000000000000001, 1.0, 30.0, f64::MAX, f64::INFINITY];
    let both = beyond.into_iter().flat_map(|x| [x, -x]).chain([f64::NAN]);
    both.map(|x| Case::new(floats(&[x]), vec![27])).collect()
}

fn at_zeros(answers: [f64; 2]) -> Vec<Case> {
    let case = |(x, answer)| Case::new(floats(&[x]), [vec![0], floats(&[answer])].concat());
    [0.0, -0.0].into_iter().zip(answers).map(case).collect()
}

pub fn sine() -> Vec<Case> {
    [refused(), at_zeros([0.0, -0.0])].into_iter().flatten().collect()
}

pub fn cosine() -> Vec<Case> {
    [refused(), at_zeros([1.0, 1.0])].into_iter().flatten().collect()
}
