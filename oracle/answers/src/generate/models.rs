//! Cases of the intrinsics, the tilted sensor, the distortion model and the closed form.

use super::values::{Draw, Style, after, before, edge, near};
use super::{Family, RANDOM_CASES};
use random::Random;
use vision_calibration_core::given_tilt::GivenTilt;
use words::float_words;

pub fn families() -> Vec<Family> {
    let family = |operation, fixed, draw| Family { operation, fixed, random: RANDOM_CASES, draw };
    vec![
        family("sine", fixed_arguments, argument),
        family("cosine", fixed_arguments, argument),
        family("pixel_to_sensor", Vec::new, pixel_to_sensor),
        family("sensor_to_pixel", Vec::new, sensor_to_pixel),
        family("tilt_projection_matrix", fixed_tilts, tilt_projection_matrix),
        family("inverse", fixed_matrices, inverse),
        family("apply_homography", fixed_homographies, apply_homography),
        family("apply_homography_inverse", fixed_homographies, apply_homography),
        family("distort", fixed_distortions, distort),
        family("distort_with_jacobian", fixed_distortions, distort),
        family("undistort", Vec::new, undistort),
        family("conic_to_camera", fixed_conics, conic_to_camera),
    ]
}

/// The ends and their neighbours, zeros, the smallest numbers, and where another order of operations
/// gives other bits: (sum · x) · x at 0.409, 0.464 and 0.258, a fused step at 0.1, 0.114 and 0.258.
fn fixed_arguments() -> Vec<Vec<u64>> {
    let (smallest, normal) = (f64::from_bits(1), f64::MIN_POSITIVE);
    let sizes =
        [0.0, smallest, before(normal), normal, 1e-160, 2.0_f64.powi(-27), 2.0_f64.powi(-26)];
    let tilts =
        [0.1, 0.114, 0.25, 0.258, 0.409, 0.464, before(0.5), 0.5, after(0.5), f64::INFINITY];
    let signed = sizes.iter().chain(&tilts).flat_map(|&size| [size, -size]);
    signed.chain([f64::NAN]).map(|x| float_words(&[x])).collect()
}

fn argument(random: &mut Random) -> Vec<u64> {
    float_words(&[Draw::new(random).value(0.5)])
}

fn pixel_to_sensor(random: &mut Random) -> Vec<u64> {
    let mut draw = Draw::new(random);
    let mut floats = draw.intrinsics().to_vec();
    floats.extend([draw.pixel(), draw.pixel()]);
    float_words(&floats)
}

fn sensor_to_pixel(random: &mut Random) -> Vec<u64> {
    let mut draw = Draw::new(random);
    let mut floats = draw.intrinsics().to_vec();
    floats.extend(draw.normalized());
    float_words(&floats)
}

/// No tilt, and the tilt that is refused.
fn fixed_tilts() -> Vec<Vec<u64>> {
    vec![float_words(&[0.0, 1.0, 0.0, 1.0]), float_words(&[1.0, 0.0, 0.0, 1.0])]
}

fn tilt_projection_matrix(random: &mut Random) -> Vec<u64> {
    float_words(&Draw::new(random).tilt())
}

/// The identity, its negative, determinants that are 0 of either sign, infinite and NaN.
fn fixed_matrices() -> Vec<Vec<u64>> {
    let diagonal = |a, b, c| float_words(&[a, 0.0, 0.0, 0.0, b, 0.0, 0.0, 0.0, c]);
    let infinity = f64::INFINITY;
    vec![
        diagonal(1.0, 1.0, 1.0),
        diagonal(-1.0, -1.0, -1.0),
        diagonal(1.0, 1.0, -2.0),
        diagonal(1.0, 1.0, 0.0),
        diagonal(1.0, -1.0, 0.0),
        diagonal(1e-200, 1e-200, 1.0),
        diagonal(1e200, 1e200, 1.0),
        diagonal(infinity, 1.0, 1.0),
        diagonal(f64::NAN, 1.0, 1.0),
        float_words(&[-0.0; 9]),
        float_words(&[1.0, 2.0, 3.0, 4.0, 5.0, 6.0, 7.0, 8.0, 9.0]),
    ]
}

fn inverse(random: &mut Random) -> Vec<u64> {
    float_words(&matrix(&mut Draw::new(random)))
}

/// Unrelated entries; a tilt's matrix; or rows that depend on each other, exactly or nearly.
fn matrix(draw: &mut Draw) -> [f64; 9] {
    let mut m: [f64; 9] = draw.values(2.0);
    match draw.random.below(4) {
        0 => {
            let factor = draw.random.pick(&[1.0, -1.0, 2.0, 0.5, 3.0]);
            let (from, to) = draw.random.pick(&[(0, 3), (0, 6), (3, 6)]);
            for column in 0..3 {
                m[to + column] = factor * m[from + column];
            }
            if draw.random.once_in(2) {
                m[to] = near(draw.random, m[to].abs().clamp(1e-300, 1e300));
            }
        }
        1 => {
            let [sin_x, cos_x, sin_y, cos_y] = draw.tilt();
            let tilt = GivenTilt { sin_x, cos_x, sin_y, cos_y }.matrix();
            m = std::array::from_fn(|place| tilt[(place / 3, place % 3)]);
        }
        _ => {}
    }
    m
}

/// A diagonal, and points whose z is at, below and above 1e-12, negative, 0 and NaN.
fn fixed_homographies() -> Vec<Vec<u64>> {
    let with_z = |z: f64| float_words(&[1.0, 0.0, 0.0, 0.0, 1.0, 0.0, 0.0, 0.0, z, 2.0, 3.0]);
    let threshold = 1e-12_f64;
    let above = f64::from_bits(threshold.to_bits() + 1);
    let below = f64::from_bits(threshold.to_bits() - 1);
    let sizes = [1.0, 2.0, threshold, above, below, 0.0, 1e300, f64::INFINITY];
    let mut cases: Vec<Vec<u64>> = sizes.iter().flat_map(|&z| [with_z(z), with_z(-z)]).collect();
    cases.push(with_z(f64::NAN));
    cases
}

fn apply_homography(random: &mut Random) -> Vec<u64> {
    let mut draw = Draw::new(random);
    let mut m = matrix(&mut draw);
    let point = draw.normalized();
    if draw.random.once_in(8) {
        // The third row alone decides z: near the threshold.
        (m[6], m[7], m[8]) = (0.0, 0.0, near(draw.random, 1e-12));
    }
    float_words(&[&m[..], &point].concat())
}

/// Where the specification's lines and the published ones give different bits: rounding, and squares that underflow.
fn fixed_distortions() -> Vec<Vec<u64>> {
    let (huge, tiny) = (2.0_f64.powi(1000), 1.5 * 2.0_f64.powi(-538));
    vec![
        float_words(&[0.0, 0.0, 0.0, 0.2, 0.0, 0.1, 0.6]),
        float_words(&[0.0, 0.0, 0.0, 0.0, huge, tiny, 0.0]),
        float_words(&[0.0, 0.0, 0.0, huge, 0.0, 0.0, tiny]),
    ]
}

fn distort(random: &mut Random) -> Vec<u64> {
    let mut draw = Draw::new(random);
    let mut floats = draw.distortion().to_vec();
    floats.extend(draw.normalized());
    float_words(&floats)
}

/// Weak and strong distortion, without and with radial or tangential parts, near and far points.
fn undistort(random: &mut Random) -> Vec<u64> {
    let mut draw = Draw::new(random);
    let mut coefficients = draw.distortion();
    let strength = draw.random.pick(&[0.0, 0.1, 0.3, 1.0, 1.0, 4.0]);
    if strength != 1.0 {
        coefficients = coefficients.map(|coefficient| coefficient * strength);
    }
    let reach = draw.random.pick(&[1e-3, 0.5, 1.0, 1.0, 3.0]);
    let point: [f64; 2] = draw.values(reach);
    let iterations = draw.random.pick(&[0, 0, 1, 2, 3, 5, 8, 20, 40]);
    let mut words = float_words(&coefficients);
    words.push(iterations);
    words.extend(float_words(&point));
    words
}

/// Values worked out by hand, and the thresholds of each refusal.
fn fixed_conics() -> Vec<Vec<u64>> {
    let mut cases = vec![
        [1.0, 0.0, 1.0, -3.0, -1.0, 14.0],
        [-1.0, -0.0, -1.0, 3.0, 1.0, -14.0],
        [0.0; 6],
        [1.0, 0.0, 1.0, 0.0, 0.0, 0.0],
        [1.0, 0.0, 1e-6, 0.0, 0.0, 1.0],
        [1e-12, 0.0, 1e-12, 0.0, 0.0, 1e-12],
        [f64::NAN, 0.0, 1.0, 0.0, 0.0, 1.0],
        [1.0, 0.0, 1.0, 0.0, 0.0, f64::INFINITY],
        [1.0, 0.0, 1.0, 1e300, 0.0, 1.0],
        [1e200, 0.0, 1e200, 0.0, 0.0, 1.0],
        [1e-170, 0.0, 1e-170, 0.0, 0.0, 1.0],
    ];
    for offset in -8_i64..=8 {
        // b22 around the ratio 1e-6, where b11 is 1 and b12 is 0.
        let near_ratio = f64::from_bits((1e-6_f64.to_bits() as i64 + 1024 * offset) as u64);
        cases.push([1.0, 0.0, near_ratio, 0.0, 0.0, 1.0]);
    }
    cases.iter().map(|b| float_words(b)).collect()
}

/// A camera's conic, scaled; some of its numbers replaced by edges; or unrelated numbers.
fn conic_to_camera(random: &mut Random) -> Vec<u64> {
    let mut draw = Draw::new(random);
    let mut b: [f64; 6] = draw.values(1.0);
    if matches!(draw.style, Style::Ordinary | Style::Short | Style::Edged) {
        b = conic_of_camera(draw.random);
        if draw.style == Style::Edged {
            let place = draw.random.below(6);
            b[place] = edge(draw.random);
        }
        if draw.style == Style::Short {
            let skew = draw.random.within(1.2);
            b[1] = skew * b[0].abs();
        }
    }
    float_words(&b)
}

fn conic_of_camera(random: &mut Random) -> [f64; 6] {
    let (fx, fy) = (500.0 + 1000.0 * random.unit(), 500.0 + 1000.0 * random.unit());
    let (cx, cy) = (random.within(640.0), random.within(480.0));
    let scale = random.pick(&[1.0, -1.0, 1e3, -1e-3, 1e-5]) * (0.5 + random.unit());
    let (xx, yy) = (1.0 / (fx * fx), 1.0 / (fy * fy));
    let last = cx * cx * xx + cy * cy * yy + random.pick(&[1.0, 1.0, 1.0, -1.0]);
    [xx, 0.0, yy, -cx * xx, -cy * yy, last].map(|entry| entry * scale)
}
