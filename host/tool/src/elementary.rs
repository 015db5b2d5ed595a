//! Sine, cosine, arctangent and logarithm by + − × ÷ √ and the library's own series alone. What enters a run (seeds, cameras,
//! rows, the built-in plate) has the same bits on every machine for that, whatever maths library it has.

use jinnychair::geometry;
use std::f64::consts::{FRAC_PI_2, LN_2, SQRT_2};

/// The library's series are for numbers up to this.
const SERIES: f64 = 0.5;
/// Below this an arctangent's series needs no more than [`ARCTANGENT_TERMS`].
const SMALL: f64 = 0.1;
const ARCTANGENT_TERMS: u32 = 9;
/// Enough for mantissas between √½ and √2, where (m − 1)/(m + 1) is at most 0.172.
const LOGARITHM_TERMS: u32 = 11;

/// Sine and cosine of an angle: the library's own up to half a radian, beyond it by doubling the angle.
#[must_use]
pub fn sine_cosine(angle: f64) -> (f64, f64) {
    if !angle.is_finite() {
        return (f64::NAN, f64::NAN);
    }
    if angle.abs() > SERIES {
        let (sine, cosine) = sine_cosine(0.5 * angle);
        return (2.0 * sine * cosine, 1.0 - 2.0 * sine * sine);
    }
    let value = |of: Result<f64, _>| of.unwrap_or(f64::NAN);
    (value(geometry::sine(angle)), value(geometry::cosine(angle)))
}

/// The angle whose tangent this is.
#[must_use]
pub fn arctangent(tangent: f64) -> f64 {
    if tangent.abs() > 1.0 {
        return FRAC_PI_2.copysign(tangent) - arctangent(1.0 / tangent);
    }
    if tangent.abs() > SMALL {
        // The tangent of half the angle.
        return 2.0 * arctangent(tangent / (1.0 + (1.0 + tangent * tangent).sqrt()));
    }
    tangent * odd_series(-tangent * tangent, ARCTANGENT_TERMS)
}

/// The natural logarithm of a normal number above 0.
#[must_use]
pub fn logarithm(x: f64) -> f64 {
    const MANTISSA: u64 = (1 << 52) - 1;
    const BIAS: i64 = 1023;
    let exponent = (x.to_bits() >> 52) as i64 - BIAS;
    let mantissa = f64::from_bits((x.to_bits() & MANTISSA) | (BIAS as u64) << 52);
    let (mantissa, exponent) =
        if mantissa > SQRT_2 { (0.5 * mantissa, exponent + 1) } else { (mantissa, exponent) };
    let ratio = (mantissa - 1.0) / (mantissa + 1.0);
    exponent as f64 * LN_2 + 2.0 * ratio * odd_series(ratio * ratio, LOGARITHM_TERMS)
}

/// 1 + q/3 + q²/5 + q³/7 + ..., the smallest terms first.
fn odd_series(q: f64, terms: u32) -> f64 {
    (0..terms).rev().fold(0.0, |sum, i| sum * q + 1.0 / f64::from(2 * i + 1))
}

#[cfg(test)]
mod tests {
    use super::*;

    /// The maths library is within one unit in the last place; these add some roundings to that.
    fn assert_near(found: f64, expected: f64, x: f64) {
        let off = (found - expected).abs() / expected.abs().max(f64::MIN_POSITIVE);
        assert!(off < 1e-14 || (found - expected).abs() < 1e-15, "{x}: {found}, {expected}");
    }

    #[test]
    fn values_are_those_of_the_maths_library() {
        for i in -700..=700 {
            let x = f64::from(i) * 0.009;
            let (sine, cosine) = sine_cosine(x);
            assert!((sine - x.sin()).abs() < 2e-15 && (cosine - x.cos()).abs() < 2e-15, "{x}");
            assert_near(arctangent(x), x.atan(), x);
            assert_near(arctangent(x.powi(9)), x.powi(9).atan(), x.powi(9));
        }
        for i in 1..2000 {
            let x = f64::from(i) * 0.0011;
            assert_near(logarithm(x), x.ln(), x);
            assert_near(logarithm(x.powi(60)), x.powi(60).ln(), x);
        }
        assert_eq!(arctangent(f64::INFINITY), FRAC_PI_2);
        assert!(sine_cosine(f64::NAN).0.is_nan() && sine_cosine(f64::INFINITY).1.is_nan());
    }
}
