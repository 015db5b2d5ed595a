//! Numbers with their derivatives by N variables: forward mode, with exact rules and no step.

use std::array::from_fn;
use std::ops::{Add, Mul, Neg, Sub};

/// What the camera model needs of a number.
pub trait Number:
    Copy + Add<Output = Self> + Sub<Output = Self> + Mul<Output = Self> + Neg<Output = Self>
{
    /// A number that depends on nothing.
    fn constant(value: f64) -> Self;
    /// 1 over the number.
    fn inverse(self) -> Self;
    /// Sine and cosine.
    fn sin_cos(self) -> (Self, Self);
}

impl Number for f64 {
    fn constant(value: f64) -> Self {
        value
    }

    fn inverse(self) -> Self {
        1.0 / self
    }

    fn sin_cos(self) -> (Self, Self) {
        self.sin_cos()
    }
}

/// A value and its derivatives.
#[derive(Clone, Copy, Debug, PartialEq)]
pub struct Dual<const N: usize> {
    /// The value.
    pub value: f64,
    /// Its derivative by each variable.
    pub slopes: [f64; N],
}

impl<const N: usize> Dual<N> {
    /// A variable with this value.
    #[must_use]
    pub fn variable(value: f64, which: usize) -> Self {
        Self { value, slopes: from_fn(|i| if i == which { 1.0 } else { 0.0 }) }
    }

    /// The chain rule: a function's value here, and its derivative.
    fn through(self, value: f64, slope: f64) -> Self {
        Self { value, slopes: self.slopes.map(|inner| slope * inner) }
    }
}

impl<const N: usize> Add for Dual<N> {
    type Output = Self;

    fn add(self, other: Self) -> Self {
        let slopes = from_fn(|i| self.slopes[i] + other.slopes[i]);
        Self { value: self.value + other.value, slopes }
    }
}

impl<const N: usize> Neg for Dual<N> {
    type Output = Self;

    fn neg(self) -> Self {
        self.through(-self.value, -1.0)
    }
}

impl<const N: usize> Sub for Dual<N> {
    type Output = Self;

    fn sub(self, other: Self) -> Self {
        self + -other
    }
}

impl<const N: usize> Mul for Dual<N> {
    type Output = Self;

    fn mul(self, other: Self) -> Self {
        let (by_this, by_other) = (other.value, self.value);
        self.through(by_this * by_other, by_this) + other.through(0.0, by_other)
    }
}

impl<const N: usize> Number for Dual<N> {
    fn constant(value: f64) -> Self {
        Self { value, slopes: [0.0; N] }
    }

    fn inverse(self) -> Self {
        let value = 1.0 / self.value;
        self.through(value, -value * value)
    }

    fn sin_cos(self) -> (Self, Self) {
        let (sine, cosine) = self.value.sin_cos();
        (self.through(sine, cosine), self.through(cosine, -sine))
    }
}

#[cfg(test)]
mod tests {
    use super::*;

    #[test]
    fn derivatives_are_those_of_the_rules() {
        // x²·sin(x)/y at (0.7, 3): by x (2x·sin x + x²·cos x)/y, by y −x²·sin(x)/y².
        let (x, y) = (Dual::<2>::variable(0.7, 0), Dual::variable(3.0, 1));
        let found = x * x * x.sin_cos().0 * y.inverse();
        let (sine, cosine) = 0.7f64.sin_cos();
        let by_x = (1.4 * sine + 0.49 * cosine) / 3.0;
        assert!((found.slopes[0] - by_x).abs() < 1e-15);
        assert!((found.slopes[1] + 0.49 * sine / 9.0).abs() < 1e-15);
        let cosine = (Dual::<1>::constant(2.0) - Dual::variable(0.5, 0)).sin_cos().1;
        assert!((cosine.slopes[0] - 1.5f64.sin()).abs() < 1e-15);
    }
}
