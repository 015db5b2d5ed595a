//! Root, sine and cosine.

use super::Bench;
use super::operation::{Rounded, Tried, called, returned};
use super::timing::{Side, keep};
use crate::plain::{Sum, leaf_cosine, leaf_root, leaf_sine};
use jinnychair::{TrigError, geometry};
use std::hint::black_box;

pub fn roots(bench: &mut Bench) {
    let numbers: Vec<f64> = (0..4096).map(|_| bench.random.unit() * 1e6).collect();
    let sides = [
        returned(&numbers, |x| geometry::sqrt(*x)),
        returned(&numbers, |x| x.sqrt()),
        returned(&numbers, |x| leaf_root(*x)),
    ];
    bench.row("root (the Rust's is one instruction)", sides);
    // Each root waits for the one before.
    fn in_turn<'a>(numbers: &'a [f64], root: impl Fn(f64) -> f64 + 'a) -> Tried<'a> {
        let turn = move || {
            numbers.iter().fold(1.5, |last, x| {
                let next = *black_box(x) + 1e-3 * root(last);
                keep(next);
                next
            })
        };
        Tried::new(&turn(), Side::of_many(numbers.len(), move || keep(turn())))
    }
    let sides = [
        in_turn(&numbers, geometry::sqrt),
        in_turn(&numbers, f64::sqrt),
        in_turn(&numbers, |x| leaf_root(x)),
    ];
    bench.row("root, each waiting for the last", sides);
}

/// ±1/n! with the signs + + − −.
const COEFFICIENTS: [f64; 16] = {
    let (mut table, mut n, mut factorial) = ([1.0; 16], 1, 1.0);
    while n < 16 {
        factorial *= n as f64;
        table[n] = if n % 4 < 2 { 1.0 / factorial } else { -1.0 / factorial };
        n += 1;
    }
    table
};

/// The library's loop and its test for 27, in Rust.
#[inline(always)]
fn series(first: usize, x: f64) -> Option<f64> {
    // No range takes a NaN in.
    if !(-0.5..=0.5).contains(&x) {
        return None;
    }
    let mut n = first + 14;
    let mut sum = COEFFICIENTS[n];
    while n > 1 {
        n -= 2;
        sum = sum * (x * x) + COEFFICIENTS[n];
    }
    Some(sum)
}

pub fn sine_in_rust(x: f64) -> Option<f64> {
    series(1, x).map(|sum| sum * x)
}

pub fn cosine_in_rust(x: f64) -> Option<f64> {
    series(0, x)
}

/// A series compared with the same loop in Rust and in C, and with the machine's maths library, which rounds differently.
fn series_beside(
    bench: &mut Bench,
    name: &str,
    tilts: &[f64],
    library: impl Fn(&f64) -> Result<f64, TrigError> + Copy,
    rust: impl Fn(&f64) -> Option<f64>,
    c: impl Fn(&f64) -> Sum,
    maths: impl Fn(&f64) -> f64,
) {
    let sides = [returned(tilts, library), called(tilts, rust), returned(tilts, c)];
    bench.row(&format!("{name} (the same loop in Rust)"), sides);
    let rounded = [
        returned(tilts, move |x| library(x).map(Rounded)),
        called(tilts, move |x| Rounded(maths(x))),
    ];
    bench.row(&format!("{name} (the maths library)"), rounded);
}

pub fn sines(bench: &mut Bench) {
    let tilts: Vec<f64> = (0..4096).map(|_| bench.random.within(0.5)).collect();
    series_beside(
        bench,
        "sine",
        &tilts,
        |x| geometry::sine(*x),
        |x| sine_in_rust(*x),
        |x| leaf_sine(*x),
        |x| x.sin(),
    );
    series_beside(
        bench,
        "cosine",
        &tilts,
        |x| geometry::cosine(*x),
        |x| cosine_in_rust(*x),
        |x| leaf_cosine(*x),
        |x| x.cos(),
    );
}
