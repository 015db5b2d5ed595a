//! Shares with Wilson's bounds, medians, and root mean squares.

use std::fmt::{Display, Formatter};

/// Two-sided 95 %.
const NORMAL: f64 = 1.959_963_984_540_054;

/// So many of so many.
#[derive(Clone, Copy, Debug, Default, PartialEq, Eq)]
pub struct Share {
    /// How many of them.
    pub count: usize,
    /// All.
    pub of: usize,
}

impl Share {
    /// Counts those of which it is true.
    pub fn of(all: impl IntoIterator<Item = bool>) -> Self {
        all.into_iter().fold(Self::default(), |share, is_one| Self {
            count: share.count + usize::from(is_one),
            of: share.of + 1,
        })
    }

    /// The share, from 0 to 1.
    #[must_use]
    pub fn part(self) -> f64 {
        self.count as f64 / self.of as f64
    }

    /// Between what a true share lies, 95 of 100 times (Wilson 1927).
    #[must_use]
    pub fn bounds(self) -> [f64; 2] {
        let (n, part, square) = (self.of as f64, self.part(), NORMAL * NORMAL);
        let middle = part + square / (2.0 * n);
        let half = NORMAL * ((part * (1.0 - part) + square / (4.0 * n)) / n).sqrt();
        [middle - half, middle + half].map(|bound| bound / (1.0 + square / n))
    }
}

impl Display for Share {
    fn fmt(&self, f: &mut Formatter) -> std::fmt::Result {
        if self.of == 0 {
            return f.write_str("none");
        }
        let [least, most] = self.bounds().map(|bound| 100.0 * bound);
        write!(f, "{} of {} ({least:.1} to {most:.1} %)", self.count, self.of)
    }
}

/// The value below which this part of them lies; NaN of none.
#[must_use]
pub fn quantile(values: &[f64], part: f64) -> f64 {
    let mut values = values.to_vec();
    values.sort_by(f64::total_cmp);
    let last = values.len().saturating_sub(1);
    values.get((part * last as f64).round() as usize).copied().unwrap_or(f64::NAN)
}

/// The root of the mean square.
pub fn rms(values: impl IntoIterator<Item = f64>) -> f64 {
    let (sum, count) =
        values.into_iter().fold((0.0, 0), |(sum, count), value| (sum + value * value, count + 1));
    (sum / f64::from(count)).sqrt()
}

/// How many deviations on each side Student's distribution needs for what two cover of a normal one: Cornish and Fisher's series
/// (Abramowitz, Stegun, 26.7.5), which is right to 10⁻³ from ten degrees of freedom on.
#[must_use]
pub fn two_deviations(freedom: usize) -> f64 {
    let n = freedom as f64;
    let z = 2.0f64;
    let terms = [
        (z.powi(3) + z) / 4.0,
        (5.0 * z.powi(5) + 16.0 * z.powi(3) + 3.0 * z) / 96.0,
        (3.0 * z.powi(7) + 19.0 * z.powi(5) + 17.0 * z.powi(3) - 15.0 * z) / 384.0,
    ];
    z + terms[0] / n + terms[1] / (n * n) + terms[2] / (n * n * n)
}

#[cfg(test)]
mod tests {
    use super::*;

    #[test]
    fn bounds_are_wilson_s() {
        // Newcombe 1998, table I: 81 of 263 is 0.2553 to 0.3662; 0 of 20 is 0 to 0.1611.
        let [least, most] = Share { count: 81, of: 263 }.bounds();
        assert!((least - 0.2553).abs() < 5e-5 && (most - 0.3662).abs() < 5e-5);
        let [least, most] = Share { count: 0, of: 20 }.bounds();
        assert!(least.abs() < 1e-12 && (most - 0.1611).abs() < 5e-5);
    }

    #[test]
    fn a_median_and_a_mean_square() {
        assert_eq!(quantile(&[3.0, 1.0, 2.0], 0.5), 2.0);
        assert!(quantile(&[], 0.5).is_nan());
        assert_eq!(rms([3.0, 4.0, 5.0, 0.0]), 12.5f64.sqrt());
    }

    #[test]
    fn students_factor_is_the_tables() {
        // SciPy 1.10: t.ppf(0.5 + erf(sqrt(2))/2, n).
        for (freedom, expected) in
            [(10, 2.283678), (30, 2.086844), (100, 2.025309), (1000, 2.002503)]
        {
            assert!((two_deviations(freedom) - expected).abs() < 1e-3, "{freedom}");
        }
    }
}
