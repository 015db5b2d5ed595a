//! Drawn inputs of Start, in the form of each side.

use book::Inputs;
use jinnychair::record;
use jinnychair::{FxFyCxCy, Inputs as SearchInputs, Options, Pt2, Seed};
use random::Random;

/// Inputs that Start mostly accepts; one in three is for a one-axis run.
#[must_use]
pub fn draw(random: &mut Random) -> Inputs {
    let inputs = draw_two_axes(random);
    if random.once_in(3) { on_one_axis(inputs, random) } else { inputs }
}

/// The same inputs for a run on one axis: each tilt about y is 0, of either sign.
#[must_use]
pub fn on_one_axis(mut inputs: Inputs, random: &mut Random) -> Inputs {
    inputs.one_axis = true;
    inputs.tilt_y_seeds = vec![random.pick(&[0.0, -0.0])];
    for seed in inputs.decomposition.chunks_exact_mut(6) {
        seed[5] = random.pick(&[0.0, -0.0]);
    }
    inputs
}

/// Few tilts, some of them alike or beyond the bound, and few rounds.
fn draw_two_axes(random: &mut Random) -> Inputs {
    let max_abs_tilt = random.pick(&[0.05, 0.2, 0.25, 0.5]);
    let tilts = |random: &mut Random| -> Vec<f64> {
        (0..1 + random.below(5)).map(|_| tilt(max_abs_tilt, random)).collect()
    };
    let (tilt_x_seeds, tilt_y_seeds) = (tilts(random), tilts(random));
    let mut base = [800.0, 790.0, 320.5, 239.25].map(|number| number + random.within(5.0));
    let mut decomposition = vec![];
    for _ in 0..random.pick(&[0, 0, 0, 1, 2, 4]) {
        let apart = random.pick(&[0.0, 1e-10, 1e-8, 3.0]);
        decomposition.extend(base.map(|number| number + apart));
        decomposition.extend([0, 1].map(|_| random.within(max_abs_tilt)));
    }
    // It is taken as given, finite or not, and a journal has one NaN for all.
    if random.once_in(8) {
        let other_nan = f64::from_bits(0xfff0_0000_0000_0055);
        base[random.below(4)] = random.pick(&[f64::NAN, other_nan, f64::INFINITY, -0.0]);
    }
    Inputs {
        views: 3 + random.below(4),
        tilt_x_seeds,
        tilt_y_seeds,
        rounds: random.below(4),
        refine_step: random.pick(&[0.1, 0.03, 0.01, 1e-11, 1e-12, 1e-13]),
        max_abs_tilt,
        one_axis: false,
        min_counted: share(random),
        decomposition,
        base,
        centre: [
            320.0 + random.within(9.0),
            random.pick(&[240.0, 240.0, 240.0, f64::INFINITY, 1e200]),
        ],
    }
}

/// The share, in per cent: 0, the published Rust's rule, half of the time; rarely one that is refused.
#[must_use]
pub fn share(random: &mut Random) -> usize {
    if random.once_in(2) { 0 } else { random.below(102) }
}

/// On a coarse grid, so that some are alike; some nearly alike, and some beyond the bound.
fn tilt(max_abs_tilt: f64, random: &mut Random) -> f64 {
    let steps = random.below(11) as f64 - 5.0;
    0.25 * max_abs_tilt * steps + random.pick(&[0.0, 0.0, 0.0, 5e-13, -0.0])
}

/// Lends them to a call of the crate's own search.
pub fn lent_to_search<T>(inputs: &Inputs, call: impl FnOnce(&SearchInputs) -> T) -> T {
    let [fx, fy, cx, cy] = inputs.base;
    let mut options = Options::default();
    options.tilt_x_seeds.clone_from(&inputs.tilt_x_seeds);
    options.tilt_y_seeds.clone_from(&inputs.tilt_y_seeds);
    (options.refine_rounds, options.refine_step) = (inputs.rounds, inputs.refine_step);
    options.max_abs_tilt = inputs.max_abs_tilt;
    (options.one_axis, options.min_counted) = (inputs.one_axis, inputs.min_counted);
    let (seeds, _) = inputs.decomposition.as_chunks();
    let decomposition: Vec<Seed> =
        seeds.iter().map(|numbers| Seed::from_numbers(*numbers)).collect();
    call(&SearchInputs {
        views: inputs.views,
        options: &options,
        decomposition: &decomposition,
        base: FxFyCxCy { fx, fy, cx, cy },
        center: Pt2 { x: inputs.centre[0], y: inputs.centre[1] },
    })
}

/// As the library takes them.
#[must_use]
pub fn for_library(inputs: &Inputs) -> record::Inputs<'_> {
    let [fx, fy, cx, cy] = inputs.base;
    record::Inputs {
        views: inputs.views,
        options: record::Options {
            refine_rounds: inputs.rounds,
            refine_step: inputs.refine_step,
            max_abs_tilt: inputs.max_abs_tilt,
            one_axis: inputs.one_axis.into(),
            min_counted: inputs.min_counted,
        },
        tilt_x_seeds: &inputs.tilt_x_seeds,
        tilt_y_seeds: &inputs.tilt_y_seeds,
        decomposition: &inputs.decomposition,
        base: FxFyCxCy { fx, fy, cx, cy },
        center: Pt2 { x: inputs.centre[0], y: inputs.centre[1] },
    }
}
