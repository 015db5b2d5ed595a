//! Cases of damping, the penalties and the mean error.

use super::values::{Draw, Style, edge, near};
use super::{Family, RANDOM_CASES};
use random::Random;
use words::float_words;

/// The most rows of an answer.
const MOST_ROWS: usize = 1024;

pub fn families() -> Vec<Family> {
    let family = |operation, fixed, draw| Family { operation, fixed, random: RANDOM_CASES, draw };
    vec![
        family("damp_seed_distortion", fixed_coefficients, damp_seed_distortion),
        family("distortion_complexity", fixed_coefficients, distortion_complexity),
        family("tilt_complexity", fixed_tilts, tilt_complexity),
        family("principal_point_complexity", fixed_centers, principal_point_complexity),
        family("mean_reproj_error", rows_at_limits, mean_reproj_error),
    ]
}

/// Tangential coefficients at, below and above the bound, of either sign, 0, infinite and NaN.
fn fixed_coefficients() -> Vec<Vec<u64>> {
    let bound = 0.05_f64;
    let above = f64::from_bits(bound.to_bits() + 1);
    let below = f64::from_bits(bound.to_bits() - 1);
    let sizes = [0.0, bound, above, below, 1.0, f64::INFINITY, f64::NAN];
    let case = |&p: &f64| float_words(&[p, -p, 1.0, p, -p]);
    sizes.iter().map(case).collect()
}

fn damp_seed_distortion(random: &mut Random) -> Vec<u64> {
    let mut draw = Draw::new(random);
    let mut coefficients = draw.distortion();
    if draw.random.once_in(4) {
        coefficients[3] = near(draw.random, 0.05);
    }
    float_words(&coefficients)
}

fn distortion_complexity(random: &mut Random) -> Vec<u64> {
    float_words(&Draw::new(random).distortion())
}

fn fixed_tilts() -> Vec<Vec<u64>> {
    vec![float_words(&[0.5, 0.0]), float_words(&[-0.0, -0.0]), float_words(&[1e155, 0.0])]
}

fn tilt_complexity(random: &mut Random) -> Vec<u64> {
    float_words(&Draw::new(random).values::<2>(0.3))
}

/// Focal lengths around 1 and NaN; squares that overflow; a centre that isn't finite.
fn fixed_centers() -> Vec<Vec<u64>> {
    let huge = 1e200;
    let cases = [
        [1.0, 1.0, 0.0, 0.0, 0.0, 0.0],
        [0.5, 2.0, 3.0, 5.0, 1.0, -1.0],
        [f64::NAN, 1.0, 3.0, 5.0, 1.0, 1.0],
        [1.0, 1.0, huge, 0.0, 0.0, 0.0],
        [800.0, 800.0, 320.0, 240.0, f64::INFINITY, 0.0],
        [800.0, 800.0, 320.0, 240.0, 0.0, f64::NAN],
    ];
    cases.iter().map(|floats| float_words(floats)).collect()
}

fn principal_point_complexity(random: &mut Random) -> Vec<u64> {
    let mut draw = Draw::new(random);
    let mut floats = draw.intrinsics().to_vec();
    floats.extend([draw.pixel(), draw.pixel()]);
    if draw.random.once_in(6) {
        floats[0] = near(draw.random, 1.0);
    }
    float_words(&floats)
}

/// A camera that is damped, a tilt, and as many rows as asked for, every third not in front.
fn many_rows(count: usize) -> Vec<u64> {
    let mut random = Random::named("many rows");
    let mut words = float_words(&[800.0, 790.0, 320.5, 239.25, 0.0, 0.0, 0.0, 0.01, -0.02]);
    words.extend(float_words(&[0.28, 0.96, -0.6, 0.8]));
    words.push(count as u64);
    for row in 0..count {
        let (x, y) = (random.within(0.4), random.within(0.3));
        words.extend(row_words([x, y], [800.0 * x + 320.0, 790.0 * y + 239.0], row % 3 != 0));
    }
    words
}

fn row_words(ideal: [f64; 2], seen: [f64; 2], in_front: bool) -> Vec<u64> {
    let mut words = float_words(&[ideal, seen].concat());
    words.push(u64::from(in_front));
    words
}

fn rows_at_limits() -> Vec<Vec<u64>> {
    vec![many_rows(MOST_ROWS), many_rows(0), many_rows(1)]
}

/// Seen pixels near to the projected ones; some rows not in front, not finite or overflowing.
fn mean_reproj_error(random: &mut Random) -> Vec<u64> {
    let count = random.pick(&[0, 1, 1, 1, 1, 2, 2, 2, 3, 5]);
    let mut draw = Draw::new(random);
    let camera = draw.intrinsics();
    let mut distortion = draw.distortion();
    if draw.random.once_in(2) {
        distortion[..3].fill(0.0);
    }
    let mut words = float_words(&[&camera[..], &distortion, &draw.tilt()].concat());
    words.push(count as u64);
    for _ in 0..count {
        words.extend(row(&mut draw, camera));
    }
    words
}

fn row(draw: &mut Draw, [fx, fy, cx, cy]: [f64; 4]) -> Vec<u64> {
    let mut ideal = draw.normalized();
    let noise = draw.random.pick(&[0.0, 0.25, 1.0, 30.0]);
    let mut seen = [fx * ideal[0] + cx, fy * ideal[1] + cy].map(|p| p + draw.random.within(noise));
    if draw.random.once_in(20) {
        ideal[0] = edge(draw.random);
    }
    if draw.style == Style::Edged && draw.random.once_in(4) {
        seen[1] = edge(draw.random);
    }
    row_words(ideal, seen, !draw.random.once_in(5))
}
