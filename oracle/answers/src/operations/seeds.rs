//! The lists of seeds: a search's first one, and the one around a best seed.

use super::search::{Published, options};
use vision_calibration_core::FxFyCxCy;
use vision_calibration_linear::scheimpflug_init::access as published;
use vision_calibration_linear::script::{Finding, SeedNumbers, play};
use words::start::Inputs;
use words::{Reader, float_words};

fn list_words(seeds: &[SeedNumbers]) -> Vec<u64> {
    let mut output = vec![seeds.len() as u64];
    output.extend(float_words(seeds.as_flattened()));
    output
}

/// Round 0's list of an accepted Start.
pub fn seed_lists(input: &mut Reader) -> Result<Vec<u64>, String> {
    let inputs = Inputs::read(input)?;
    if let Some(number) = inputs.refusal()? {
        return Err(format!("Start refuses with {number}"));
    }
    let [fx, fy, cx, cy] = inputs.base;
    let base = FxFyCxCy { fx, fy, cx, cy };
    let (dataset, options) = (inputs.dataset(), inputs.options());
    let never_asked = |_: &SeedNumbers| Finding::Failed;
    let (seeds, _) = play(inputs.given(true), never_asked, || {
        published::initial_seed_grid(&dataset, &base, &options)
    });
    seeds
        .map(|seeds| list_words(&seeds))
        .map_err(|error| format!("an error without a number: {error}"))
}

pub fn local_seed_grid(input: &mut Reader) -> Result<Vec<u64>, String> {
    let best = input.floats()?;
    let [step, max_abs_tilt] = input.floats()?;
    let seeds = published::local_seed_grid(best, step, &options(max_abs_tilt));
    Ok(list_words(&seeds))
}
