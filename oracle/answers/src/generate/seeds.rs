//! Cases of the lists of seeds, and the inputs of Start.

use super::Family;
use super::values::{Draw, edge, near};
use random::Random;
use words::float_words;
use words::start::Inputs;

/// Lists are long, so these files have fewer cases.
const RANDOM_CASES: usize = 320;

pub fn families() -> Vec<Family> {
    let family = |operation, fixed, draw| Family { operation, fixed, random: RANDOM_CASES, draw };
    vec![
        family("seed_lists", fixed_lists, |random| start_inputs(random).words()),
        family("local_seed_grid", fixed_steps, local_seed_grid),
    ]
}

/// The camera around which seeds are drawn.
pub const CAMERA: [f64; 4] = [800.0, 790.0, 320.5, 239.25];

/// Start's inputs with these tilts, and nothing else of note.
pub fn plain_inputs(tilt_x_seeds: &[f64], tilt_y_seeds: &[f64], max_abs_tilt: f64) -> Inputs {
    Inputs {
        views: 3,
        tilt_x_seeds: tilt_x_seeds.to_vec(),
        tilt_y_seeds: tilt_y_seeds.to_vec(),
        rounds: 0,
        refine_step: 0.02,
        max_abs_tilt,
        decomposition: Vec::new(),
        base: CAMERA,
        center: [320.0, 240.0],
    }
}

/// The most seeds that Start takes, no two of them near.
pub fn most_seeds() -> Inputs {
    let tilts: Vec<f64> = (0..16).map(|i| 0.015625 * f64::from(i) - 0.125).collect();
    let decomposition = |i: usize| {
        let (column, row) = ((i % 16) as f64, (i / 16) as f64);
        [750.0 + column, 800.0, 320.0, 240.0, 0.0078125 * row, 0.0625]
    };
    Inputs {
        rounds: 16,
        refine_step: 0.0625,
        decomposition: (0..256).flat_map(decomposition).collect(),
        ..plain_inputs(&tilts, &tilts, 0.25)
    }
}

/// Lists worked out by hand, lists of nothing, nearness in a chain, and the most seeds.
fn fixed_lists() -> Vec<Vec<u64>> {
    let chain = [0.0, 7e-13, 1.4e-12, 2.1e-12];
    let beyond = plain_inputs(&[0.3, -0.3], &[0.0], 0.25);
    let mut merged_twice = plain_inputs(&chain, &[0.0], 0.25);
    // The first of the chain falls to this one; what fell to the first is gone with it.
    merged_twice.decomposition = [&CAMERA[..], &[-5e-13, 0.0]].concat();
    let mut not_finite = plain_inputs(&chain, &[0.0, 0.125], 0.25);
    not_finite.base = [f64::NAN, f64::INFINITY, 0.0, 0.0];
    not_finite.decomposition = merged_twice.decomposition.repeat(2);
    let lists = [
        plain_inputs(&[0.25, 0.5], &[0.0], 0.25),
        plain_inputs(&[0.0, -0.0], &[0.0], 0.25),
        plain_inputs(&[-0.0, 0.0], &[0.0, -0.0], 0.25),
        plain_inputs(&chain, &chain, 0.25),
        beyond,
        merged_twice,
        not_finite,
        most_seeds(),
    ];
    lists.iter().map(Inputs::words).collect()
}

/// A few tilts and seeds that often meet, or nearly meet, within an accepted Start.
pub fn start_inputs(random: &mut Random) -> Inputs {
    let max_abs_tilt = random.pick(&[0.25, 0.3, 0.16, 0.04, 0.5]);
    let base = camera(random);
    let tilts = |random: &mut Random, most: usize| -> Vec<f64> {
        (0..1 + random.below(most)).map(|_| tilt(random)).collect()
    };
    let (tilt_x_seeds, tilt_y_seeds) = (tilts(random, 4), tilts(random, 3));
    let decomposition = (0..random.pick(&[0, 0, 1, 1, 2, 3, 5]))
        .flat_map(|_| {
            let inside = |tilt: f64| tilt.clamp(-max_abs_tilt, max_abs_tilt);
            let [fx, fy, cx, cy] = camera(random);
            [fx, fy, cx, cy, inside(tilt(random)), inside(tilt(random))]
        })
        .collect();
    let odd_base = [edge(random), base[1], base[2], edge(random)];
    Inputs {
        views: 3 + random.below(4),
        tilt_x_seeds,
        tilt_y_seeds,
        rounds: random.pick(&[0, 0, 1, 1, 1, 2, 3]),
        refine_step: random.pick(&[0.02, 0.02, 0.04, 0.125, 1e-13, 4e-13]),
        max_abs_tilt,
        decomposition,
        base: if random.once_in(12) { odd_base } else { base },
        center: [320.0 + random.within(8.0), 240.0 + random.within(8.0)],
    }
}

/// A tilt of a coarse grid, exactly or off by about the distance that counts as near.
fn tilt(random: &mut Random) -> f64 {
    let at = random.pick(&[0.0, -0.0, 0.04, -0.04, 0.12, 0.16, -0.25, 0.3]);
    let off = random.pick(&[0.0, 0.0, 0.0, 7e-13, -7e-13, 1e-12, -1e-12, 1e-11]);
    if off == 0.0 { at } else { at + off }
}

/// The one camera, exactly or with one number off by about the distance that counts as near.
fn camera(random: &mut Random) -> [f64; 4] {
    let mut camera = CAMERA;
    let place = random.below(4);
    let off = random.pick(&[0.0, 0.0, 0.0, 6e-10, -6e-10, 1e-9, -1e-9, 2e-9, 25.0]);
    camera[place] += off;
    camera
}

/// A list worked out by hand, steps that only just merge, and centres at the bound, beyond it and NaN.
fn fixed_steps() -> Vec<Vec<u64>> {
    let case = |tilt: [f64; 2], step: f64, bound: f64| {
        float_words(&[&CAMERA[..], &tilt, &[step, bound]].concat())
    };
    let mut cases = vec![
        case([0.25, 0.0], 0.125, 0.25),
        case([-0.0, 0.0], 0.125, 0.25),
        case([0.25, -0.25], f64::MIN_POSITIVE, 0.25),
        case([0.3, 0.0], 0.05, 0.25),
        case([0.3, 0.0], 0.02, 0.25),
        case([f64::NAN, 0.0], 0.05, 0.25),
        case([0.0, f64::INFINITY], 0.05, 0.25),
        case([0.0, 0.0], 1e300, f64::MAX),
    ];
    for step in [1e-12, 5e-13, 1e-13, 1e-15, 1e-18, f64::from_bits(1), 2e-12] {
        cases.push(case([0.0, 0.0], step, 0.25));
        cases.push(case([0.25, 0.1], step, 0.25));
    }
    cases
}

fn local_seed_grid(random: &mut Random) -> Vec<u64> {
    let bound = random.pick(&[0.25, 0.3, 1.0]);
    let step = random.pick(&[0.02, 0.01, 0.125, 0.5, 1e-12, 5e-13, 7e-13, 3e-12, 1e-14]);
    let center = [random.within(bound), tilt(random)];
    let step = if random.once_in(3) { near(random, step).abs() } else { step };
    let mut draw = Draw::new(random);
    float_words(&[&draw.intrinsics()[..], &center, &[step, bound]].concat())
}
