//! Operations on lists of inputs. Every side is called, and all must give the same answers before they are timed.

use super::timing::{Side, keep};
use crate::plain::Sum;
use jinnychair::geometry::DistortedPoint;
use jinnychair::{BrownConrady5, FxFyCxCy, Pt2};
use nalgebra::{DMatrix, Matrix3};
use std::fmt::Debug;
use std::hint::black_box;
use vision_calibration_core as published;
use words::{float_words, line};

/// What an operation answers, as a text to compare: each number by its bits.
pub trait Answer {
    fn text(&self) -> String;
}

macro_rules! answers {
    ($($type:ty: $x:ident => $numbers:expr;)+) => {
        $(impl Answer for $type {
            fn text(&self) -> String {
                let $x = self;
                line(&float_words(&$numbers))
            }
        })+
    };
}

answers! {
    f64: x => [*x];
    Sum: sum => [sum.value];
    Pt2: p => [p.x, p.y];
    published::Pt2: p => [p.x, p.y];
    DMatrix<f64>: m => m.row_by_row();
    Matrix3<f64>: m => [0, 1, 2].map(|i| [m[(i, 0)], m[(i, 1)], m[(i, 2)]]).as_flattened();
    FxFyCxCy: k => [k.fx, k.fy, k.cx, k.cy];
    published::FxFyCxCy<f64>: k => [k.fx, k.fy, k.cx, k.cy];
    BrownConrady5: d => [d.k1, d.k2, d.k3, d.p1, d.p2];
    published::BrownConrady5<f64>: d => [d.k1, d.k2, d.k3, d.p1, d.p2];
    DistortedPoint: d => {
        let (p, j) = (d.point, d.jacobian);
        [p.x, p.y, j.xx, j.xy, j.yx, j.yy]
    };
}

impl Answer for bool {
    fn text(&self) -> String {
        self.to_string()
    }
}

impl<A: Answer> Answer for [A] {
    fn text(&self) -> String {
        self.iter().map(Answer::text).collect::<Vec<_>>().join(" ")
    }
}

impl<A: Answer, const N: usize> Answer for [A; N] {
    fn text(&self) -> String {
        self.as_slice().text()
    }
}

impl<A: Answer> Answer for Vec<A> {
    fn text(&self) -> String {
        self.as_slice().text()
    }
}

impl Answer for published::PlanarDataset {
    fn text(&self) -> String {
        self.views[0].obs.points_2d.text()
    }
}

impl<A: Answer, B: Answer> Answer for (A, B) {
    fn text(&self) -> String {
        format!("{} {}", self.0.text(), self.1.text())
    }
}

impl<A: Answer> Answer for Option<A> {
    fn text(&self) -> String {
        self.as_ref().expect("the inputs are good").text()
    }
}

impl<A: Answer, E: Debug> Answer for Result<A, E> {
    fn text(&self) -> String {
        self.as_ref().expect("the inputs are good").text()
    }
}

/// An answer that all sides give as the same type.
pub struct Same<T>(pub T);

impl<T: Debug> Answer for Same<T> {
    fn text(&self) -> String {
        format!("{:?}", self.0)
    }
}

/// A number that two sides round differently: all but its last bits.
pub struct Rounded(pub f64);

impl Answer for Rounded {
    fn text(&self) -> String {
        format!("{:.12e}", self.0)
    }
}

/// One side of a row: its answers, and its turns over the inputs.
pub struct Tried<'a> {
    answers: Vec<String>,
    side: Side<'a>,
}

impl<'a> Tried<'a> {
    /// A side that has one answer.
    pub fn new(answer: &impl Answer, side: Side<'a>) -> Self {
        Self { answers: vec![answer.text()], side }
    }
}

/// Turns over the inputs.
fn turns<'a, I, A>(inputs: &'a [I], operation: impl Fn(&I) -> A + 'a) -> Side<'a> {
    let turn = move || inputs.iter().for_each(|input| keep(operation(black_box(input))));
    Side::of_many(inputs.len(), turn)
}

/// A side that returns its answer.
pub fn returned<'a, I, A: Answer>(inputs: &'a [I], operation: impl Fn(&I) -> A + 'a) -> Tried<'a> {
    let answers = inputs.iter().map(|input| operation(input).text()).collect();
    Tried { answers, side: turns(inputs, operation) }
}

/// The same for Rust, which the compiler would put into the loop: here it is called, as the library and C are.
pub fn called<'a, I, A: Answer>(inputs: &'a [I], operation: impl Fn(&I) -> A + 'a) -> Tried<'a> {
    #[inline(never)]
    fn call<I, A>(operation: &impl Fn(&I) -> A, input: &I) -> A {
        operation(input)
    }
    returned(inputs, move |input| call(&operation, input))
}

/// The same for Rust that takes its input by value, by the rules of C as the library does: Rust's own pass large structs by reference.
pub fn called_by_value<'a, I: Copy, A: Answer>(
    inputs: &'a [I],
    operation: impl Fn(I) -> A + 'a,
) -> Tried<'a> {
    #[inline(never)]
    #[allow(improper_ctypes_definitions, reason = "only Rust calls it")]
    extern "C" fn call<I, A>(operation: &impl Fn(I) -> A, input: I) -> A {
        operation(input)
    }
    returned(inputs, move |input| call(&operation, *input))
}

/// A side that writes its answer to a place.
pub fn written<'a, I, A: Answer + 'a>(
    inputs: &'a [I],
    mut place: A,
    operation: impl Fn(&I, &mut A) + 'a,
) -> Tried<'a> {
    let mut answer = |input| {
        operation(input, &mut place);
        place.text()
    };
    let answers = inputs.iter().map(&mut answer).collect();
    let turn = move || {
        for input in inputs {
            operation(black_box(input), &mut place);
            keep(&mut place);
        }
    };
    Tried { answers, side: Side::of_many(inputs.len(), turn) }
}

/// The sides of a row, whose answers are the same.
///
/// # Panics
///
/// They aren't.
pub fn agree<'a, const N: usize>(name: &str, sides: [Tried<'a>; N]) -> [Side<'a>; N] {
    for other in &sides[1..] {
        assert_eq!(sides[0].answers, other.answers, "{name}");
    }
    sides.map(|tried| tried.side)
}

#[cfg(test)]
mod tests {
    use super::*;

    const NUMBERS: [f64; 2] = [2.0, 3.0];

    #[test]
    fn sides_with_the_same_answers_agree() {
        let sides = [returned(&NUMBERS, |x| x * x), called(&NUMBERS, |x| x.powi(2))];
        let sides = agree("squares", sides);
        assert_eq!(sides.map(|side| side.operations()), [2, 2]);
    }

    #[test]
    #[should_panic(expected = "squares")]
    fn a_last_bit_is_a_difference() {
        let square = |x: &f64| if *x == 3.0 { 9.0_f64.next_up() } else { x * x };
        agree("squares", [returned(&NUMBERS, |x| x * x), returned(&NUMBERS, square)]);
    }

    #[test]
    #[should_panic(expected = "squares")]
    fn a_missing_answer_is_a_difference() {
        agree("squares", [returned(&NUMBERS, |x| x * x), returned(&NUMBERS[..1], |x| x * x)]);
    }
}
