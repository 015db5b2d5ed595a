//! The first eight terms of each series at a tilt, as a fraction of whole numbers, beside what
//! [`sine`] and [`cosine`] give.

use super::natural::Natural;
use super::{MOST, cosine, sine};
use random::Random;
use std::cmp::Ordering;

/// (plus − minus) / 2^power.
struct Fraction {
    plus: Natural,
    minus: Natural,
    power: usize,
}

/// m and s where the float is ±m / 2^s; of tilts s is never below 0.
fn parts(x: f64) -> (u64, usize) {
    let (digits, exponent) = (x.to_bits() & ((1 << 52) - 1), (x.to_bits() >> 52 & 0x7ff) as i32);
    let (m, e) = if exponent == 0 { (digits, -1074) } else { (digits | 1 << 52, exponent - 1075) };
    (m, (-e) as usize)
}

/// 15! times the sum of x^n / n! over n = first, first + 2, …, first + 14, every second one negative.
fn terms(first: usize, x: f64) -> Fraction {
    let (m, s) = parts(x);
    let power = (first + 14) * s;
    let mut sums = [Natural::new(0), Natural::new(0)];
    for n in (first..first + 15).step_by(2) {
        let coefficient: u64 = (n as u64 + 1..=15).product();
        let digits =
            (0..n).fold(Natural::new(coefficient), |product, _| product.times(&Natural::new(m)));
        let is_negative = (n % 4 >= 2) != (x.is_sign_negative() && n % 2 == 1);
        let sum = &mut sums[usize::from(is_negative)];
        *sum = sum.add(&digits.shifted(power - n * s));
    }
    let [plus, minus] = sums;
    Fraction { plus, minus, power }
}

/// The distance of a value from the fraction, as numerator over 15! · 2^power.
fn distance(value: f64, exact: &Fraction) -> (Natural, Natural) {
    let (m, s) = parts(value);
    let factorial = Natural::new((1..=15).product());
    let value_digits = Natural::new(m).times(&factorial).shifted(exact.power);
    let (mut plus, mut minus) = (exact.plus.shifted(s), exact.minus.shifted(s));
    let other_side = if value.is_sign_negative() { &mut plus } else { &mut minus };
    *other_side = other_side.add(&value_digits);
    (plus.apart(&minus), factorial.shifted(exact.power + s))
}

/// The distance in units of 2^-53; a distance of more than 2^-50 is refused exactly.
fn error(value: f64, exact: &Fraction) -> f64 {
    let (apart, whole) = distance(value, exact);
    assert_ne!(apart.shifted(50).cmp(&whole), Ordering::Greater, "{value}");
    let ((a, i), (b, j)) = (apart.shifted(53).leading(), whole.leading());
    a / b * 2.0_f64.powi(i - j)
}

/// The tilt with the largest error among many, and the error.
fn largest(first: usize, answer: fn(f64) -> f64, tilts: &[f64]) -> (f64, f64) {
    let with_error = |&x: &f64| (x, error(answer(x), &terms(first, x)));
    tilts
        .iter()
        .map(with_error)
        .fold((0.0, 0.0), |most, next| if next.1 > most.1 { next } else { most })
}

/// Tilts of every size: even draws, draws of every exponent, the ends and their neighbours.
fn tilts() -> Vec<f64> {
    let mut random = Random::named("series");
    let mut tilts = vec![0.0, -0.0, MOST, -MOST, MOST.next_down(), 0.25, 0.1, 0.258, 0.409, 0.464];
    tilts.extend([f64::from_bits(1), -f64::MIN_POSITIVE, f64::MIN_POSITIVE.next_down()]);
    tilts.extend((0..100_000).map(|_| random.within(MOST)));
    tilts.extend((0..2_000).map(|_| {
        let exponent = 1022 - random.below(60) as u64;
        f64::from_bits((random.bits() & 0x800f_ffff_ffff_ffff) | exponent << 52).clamp(-MOST, MOST)
    }));
    tilts.extend((0..100).map(|_| f64::from_bits(random.bits() % (MOST.to_bits() + 1))));
    tilts
}

/// In units of 2^-53, in which the bound is 8.
#[test]
fn the_largest_errors_seen_are_those_written_down() {
    let tilts = tilts();
    let seen = |first, answer| {
        let (at, error) = largest(first, answer, &tilts);
        format!("{error:.3} at {at}")
    };
    assert_eq!(seen(1, sine), "0.517 at -0.4853840107236356");
    assert_eq!(seen(0, cosine), "0.662 at -0.47395657620456344");
}

#[test]
fn a_zero_gives_itself_and_one() {
    for zero in [0.0, -0.0] {
        assert_eq!(sine(zero).to_bits(), f64::to_bits(zero));
        assert_eq!(cosine(zero).to_bits(), 1.0_f64.to_bits());
    }
}

/// A value that is one bit off has another distance.
#[test]
fn the_distance_is_exact() {
    let exact = terms(0, 0.0);
    let (apart, whole) = distance(1.0_f64.next_up(), &exact);
    assert_eq!(apart.shifted(52), whole);
    assert_eq!(distance(1.0, &exact).0, Natural::new(0));
    let half = terms(1, -MOST);
    let next = sine(-MOST).next_down();
    assert_ne!(distance(next, &half).0, distance(sine(-MOST), &half).0);
}
