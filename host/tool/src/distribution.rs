//! Student's and Fisher's distributions, by the incomplete beta function: how far chance alone moves an estimate, and how
//! often it alone makes two sums of squares differ so much.

/// What a bound covers: two standard deviations of a normal number.
pub const COVERED: f64 = 0.9545;

/// A continued fraction isn't followed beyond this many terms: those of a million dots need a few thousand.
const MOST_TERMS: u32 = 100_000;

/// The chance of a number above f, where chance alone divides the mean squares of `of` and `to` degrees of freedom.
#[must_use]
pub fn f_above(f: f64, of: f64, to: f64) -> f64 {
    if f > 0.0 { incomplete_beta(0.5 * to, 0.5 * of, to / (to + of * f)) } else { 1.0 }
}

/// The chance of a value of Student's distribution below t.
#[must_use]
pub fn student_below(t: f64, freedom: f64) -> f64 {
    let beyond = 0.5 * incomplete_beta(0.5 * freedom, 0.5, freedom / (freedom + t * t));
    if t > 0.0 { 1.0 - beyond } else { beyond }
}

/// The least bound that covers a number with this chance, where an estimate of it lies `off` beside the middle and has this
/// standard deviation.
#[must_use]
pub fn bound(off: f64, deviation: f64, freedom: usize, chance: f64) -> f64 {
    let (off, freedom) = (off.abs(), freedom as f64);
    let covers = |bound: f64| {
        let below = |at: f64| student_below(at / deviation, freedom);
        below(off + bound) - below(off - bound) >= chance
    };
    let mut most = off + 2.0 * deviation;
    while most.is_finite() && !covers(most) {
        most *= 2.0;
    }
    let mut least = 0.0;
    for _ in 0..60 {
        let middle = 0.5 * (least + most);
        if covers(middle) { most = middle } else { least = middle }
    }
    most
}

/// The regularised incomplete beta function (NIST's DLMF, 8.17.4 and 8.17.22).
fn incomplete_beta(a: f64, b: f64, x: f64) -> f64 {
    if x <= 0.0 || x >= 1.0 {
        return x.clamp(0.0, 1.0);
    }
    if x > (a + 1.0) / (a + b + 2.0) {
        return 1.0 - incomplete_beta(b, a, 1.0 - x);
    }
    let front = a * x.ln() + b * (-x).ln_1p() + ln_gamma(a + b) - ln_gamma(a) - ln_gamma(b);
    front.exp() / (a * beta_fraction(a, b, x))
}

/// The continued fraction 1 + d1/(1 + d2/(1 + ...)) of DLMF 8.17.22, by Lentz's method.
fn beta_fraction(a: f64, b: f64, x: f64) -> f64 {
    let (mut value, mut upper, mut lower) = (1.0, 1.0, 0.0);
    for n in 1..MOST_TERMS {
        let m = f64::from(n / 2);
        let numerator = if n % 2 == 0 {
            m * (b - m) * x / ((a + 2.0 * m - 1.0) * (a + 2.0 * m))
        } else {
            -(a + m) * (a + b + m) * x / ((a + 2.0 * m) * (a + 2.0 * m + 1.0))
        };
        let away_from_0 = |y: f64| if y.abs() < f64::MIN_POSITIVE { f64::MIN_POSITIVE } else { y };
        lower = 1.0 / away_from_0(1.0 + numerator * lower);
        upper = away_from_0(1.0 + numerator / upper);
        value *= upper * lower;
        if (upper * lower - 1.0).abs() < f64::EPSILON {
            break;
        }
    }
    value
}

/// The logarithm of the gamma function above 0: Stirling's series (DLMF 5.11.1) behind a shift to where it is exact.
fn ln_gamma(x: f64) -> f64 {
    const SHIFTED: f64 = 12.0;
    const SERIES: [f64; 5] = [1.0 / 12.0, -1.0 / 360.0, 1.0 / 1260.0, -1.0 / 1680.0, 1.0 / 1188.0];
    let (mut z, mut product) = (x, 1.0);
    while z < SHIFTED {
        product *= z;
        z += 1.0;
    }
    let inverse = 1.0 / (z * z);
    let series = SERIES.iter().rev().fold(0.0, |sum, term| sum * inverse + term) / z;
    (z - 0.5) * z.ln() - z + 0.5 * (2.0 * std::f64::consts::PI).ln() + series - product.ln()
}

#[cfg(test)]
mod tests {
    use super::*;

    #[test]
    fn students_chances_are_those_of_the_tables() {
        for (t, freedom, expected) in [
            (12.706, 1.0, 0.975),
            (4.303, 2.0, 0.975),
            (2.776, 4.0, 0.975),
            (2.571, 5.0, 0.975),
            (1.697, 30.0, 0.95),
            (1.9719, 200.0, 0.975),
            (1.95996, 1e6, 0.975),
        ] {
            let found = student_below(t, freedom);
            assert!((found - expected).abs() < 1e-4, "{freedom}: {found}");
            assert!((student_below(-t, freedom) - (1.0 - expected)).abs() < 1e-4);
        }
    }

    #[test]
    fn fishers_chances_are_those_of_the_tables() {
        for (f, of, to, expected) in [
            (5.994, 4.0, 10.0, 0.01),
            (4.431, 4.0, 20.0, 0.01),
            (3.480, 4.0, 120.0, 0.01),
            (99.249, 4.0, 2.0, 0.01),
            (2.632, 10.0, 60.0, 0.01),
            (1.0, 20.0, 20.0, 0.5),
        ] {
            let found = f_above(f, of, to);
            assert!((found - expected).abs() < 1e-4, "{of} {to}: {found}");
        }
        // Of two numbers it is closed: (1 + 2f/n)^(-n/2).
        for to in [3.0_f64, 40.0, 36_000.0] {
            let closed = (1.0 + 2.0 * 4.7 / to).powf(-0.5 * to);
            assert!((f_above(4.7, 2.0, to) / closed - 1.0).abs() < 1e-9);
        }
        assert_eq!((f_above(0.0, 4.0, 10.0), f_above(-1.0, 4.0, 10.0)), (1.0, 1.0));
    }

    #[test]
    fn a_bound_grows_with_what_lies_off_and_with_few_degrees_of_freedom() {
        let bound = |off, deviation, freedom| super::bound(off, deviation, freedom, COVERED);
        assert!((bound(0.0, 1.0, 1000) - 2.002).abs() < 0.002);
        assert!((bound(0.0, 1.0, 2) - 4.53).abs() < 0.01);
        // Far off, one side is left.
        assert!((bound(5.0, 1.0, 100_000) - 6.69).abs() < 0.01);
        assert!((1.0..3.0).contains(&bound(0.8, 1.0, 1000)));
        assert!((bound(5.0, 0.0001, 10) - 5.0).abs() < 0.001);
    }
}
