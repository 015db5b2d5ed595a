//! Sine and cosine of a tilt (docs/SPECIFICATION.md, 2.6): eight coefficients ±1/n!, each rounded to nearest; the sum
//! starts at the last one, then times x·x plus the one before; the sine ends times x. Every product
//! and every sum rounds. The tests compare both with exact fractions.

#[cfg(test)]
mod exact;
#[cfg(test)]
mod natural;

/// The largest tilt, in radians, that has a sine and a cosine here.
pub const MOST: f64 = 0.5;

/// The number for a tilt that is NaN or beyond [`MOST`] in size.
pub const BEYOND: u64 = 27;

pub fn is_beyond(x: f64) -> bool {
    x.is_nan() || x.abs() > MOST
}

pub fn sine(x: f64) -> f64 {
    sum(1, x * x) * x
}

pub fn cosine(x: f64) -> f64 {
    sum(0, x * x)
}

/// From the coefficient `first + 14` down to `first`.
fn sum(first: usize, square: f64) -> f64 {
    let mut sum = COEFFICIENTS[first + 14];
    for n in (first..first + 14).step_by(2).rev() {
        sum = sum * square + COEFFICIENTS[n];
    }
    sum
}

/// ±1/n!, with the signs + + − −. n! is exact in a float up to 15!, so the quotient is rounded once.
const COEFFICIENTS: [f64; 16] = {
    let (mut table, mut n, mut factorial) = ([1.0; 16], 1, 1_u64);
    while n < 16 {
        factorial *= n as u64;
        let size = 1.0 / factorial as f64;
        table[n] = if n % 4 < 2 { size } else { -size };
        n += 1;
    }
    table
};
