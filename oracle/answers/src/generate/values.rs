//! Values of the kinds that the operations take, in several styles.

use random::Random;

/// Values at the edges of the format and of the rules' thresholds.
const EDGES: &[f64] = &[
    0.0,
    -0.0,
    f64::from_bits(1),
    -f64::from_bits(1),
    f64::from_bits(0x000f_ffff_ffff_ffff),
    f64::MIN_POSITIVE,
    -f64::MIN_POSITIVE,
    1e-320,
    1e-200,
    -1e-160,
    1e-12,
    -1e-12,
    1e-9,
    1e-6,
    f64::EPSILON,
    1.0,
    -1.0,
    1.0 + f64::EPSILON,
    1.0 - f64::EPSILON / 2.0,
    0.05,
    -0.05,
    2.0,
    1e9,
    9_007_199_254_740_993.0,
    1e154,
    -1e155,
    1e300,
    f64::MAX,
    f64::MIN,
    f64::INFINITY,
    f64::NEG_INFINITY,
    f64::NAN,
    f64::NAN,
];

/// How a case's values are drawn.
#[derive(Clone, Copy, Debug, PartialEq)]
pub enum Style {
    /// Within the usual range, all bits drawn.
    Ordinary,
    /// Within the usual range, few bits: exact sums, ties and equal values.
    Short,
    /// Usual values among edges.
    Edged,
    /// Any exponent from 2^-90 to 2^90.
    Wide,
    /// Any bits.
    Bits,
}

const STYLES: &[Style] = &[
    Style::Ordinary,
    Style::Ordinary,
    Style::Ordinary,
    Style::Ordinary,
    Style::Short,
    Style::Short,
    Style::Edged,
    Style::Edged,
    Style::Wide,
    Style::Bits,
];

pub fn edge(random: &mut Random) -> f64 {
    random.pick(EDGES)
}

/// The next value of the format, away from 0 for positive values.
pub fn after(value: f64) -> f64 {
    f64::from_bits(value.to_bits() + 1)
}

/// The value before, towards 0 for positive values.
pub fn before(value: f64) -> f64 {
    f64::from_bits(value.to_bits() - 1)
}

/// One of the value, its neighbours, and its negative.
pub fn near(random: &mut Random, value: f64) -> f64 {
    random.pick(&[value, after(value), before(value), -value, -after(value), -before(value)])
}

/// Draws the values of one case.
pub struct Draw<'a> {
    pub random: &'a mut Random,
    pub style: Style,
}

impl<'a> Draw<'a> {
    /// A draw in a style of its own.
    pub fn new(random: &'a mut Random) -> Self {
        let style = random.pick(STYLES);
        Self { random, style }
    }

    /// A value whose usual range is −range to range.
    pub fn value(&mut self, range: f64) -> f64 {
        match self.style {
            Style::Ordinary => self.random.within(range),
            Style::Short => range * (self.random.below(17) as f64 - 8.0) / 8.0,
            Style::Edged if self.random.once_in(3) => edge(self.random),
            Style::Edged => self.random.within(range),
            Style::Wide => self.wide(),
            Style::Bits => f64::from_bits(self.random.bits()),
        }
    }

    fn wide(&mut self) -> f64 {
        let exponent = 1023 - 90 + self.random.below(181) as u64;
        let sign_and_digits = self.random.bits() & 0x800f_ffff_ffff_ffff;
        f64::from_bits(sign_and_digits | exponent << 52)
    }

    pub fn values<const N: usize>(&mut self, range: f64) -> [f64; N] {
        std::array::from_fn(|_| self.value(range))
    }

    pub fn focal_length(&mut self) -> f64 {
        let length = self.value(1000.0);
        if matches!(self.style, Style::Ordinary | Style::Short) {
            return length.abs() + 500.0;
        }
        length
    }

    /// fx, fy, cx, cy.
    pub fn intrinsics(&mut self) -> [f64; 4] {
        let focal_lengths = [self.focal_length(), self.focal_length()];
        [focal_lengths[0], focal_lengths[1], self.pixel(), self.pixel()]
    }

    pub fn pixel(&mut self) -> f64 {
        let pixel = self.value(640.0);
        if self.style == Style::Ordinary {
            return pixel.abs();
        }
        pixel
    }

    /// k1, k2, k3, p1, p2.
    pub fn distortion(&mut self) -> [f64; 5] {
        let [k1, k2, k3] = self.values(0.5);
        let [p1, p2] = self.values(0.08);
        [k1, k2, k3, p1, p2]
    }

    /// A point of the normalized plane.
    pub fn normalized(&mut self) -> [f64; 2] {
        self.values(1.0)
    }

    /// Sine and cosine of two tilts; in an odd style, four unrelated numbers.
    pub fn tilt(&mut self) -> [f64; 4] {
        match self.style {
            Style::Ordinary => given_tilt(self.random.within(0.3), self.random.within(0.3)),
            Style::Short => {
                let pairs =
                    [(0.0, 1.0), (0.6, 0.8), (-0.6, 0.8), (-0.28, 0.96), (1.0, 0.0), (-0.0, 1.0)];
                let ((sin_x, cos_x), (sin_y, cos_y)) =
                    (self.random.pick(&pairs), self.random.pick(&pairs));
                [sin_x, cos_x, sin_y, cos_y]
            }
            _ => self.values(1.0),
        }
    }

    /// As many points as asked for, x then y.
    pub fn points(&mut self, count: usize, range: f64) -> Vec<f64> {
        (0..2 * count).map(|_| self.value(range)).collect()
    }
}

/// Sine and cosine of both tilts.
fn given_tilt(tilt_x: f64, tilt_y: f64) -> [f64; 4] {
    [series::sine(tilt_x), series::cosine(tilt_x), series::sine(tilt_y), series::cosine(tilt_y)]
}
