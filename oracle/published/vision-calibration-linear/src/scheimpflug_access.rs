//! Private functions of the published search, for the oracle, and the seeds as six numbers.

use super::{
    BrownConrady5, CandidateSeed, Error, FxFyCxCy, Iso3, PinholeCamera, PlanarDataset, Pt2, Real,
    ScheimpflugIntrinsicsInitOptions, ScheimpflugParams,
};
use crate::script::SeedNumbers;

/// fx, fy, cx, cy, tilt_x, tilt_y.
pub(super) fn numbers(seed: &CandidateSeed) -> SeedNumbers {
    let (k, tilt) = (&seed.reference_k, &seed.sensor);
    [k.fx, k.fy, k.cx, k.cy, tilt.tilt_x, tilt.tilt_y]
}

pub(super) fn candidate_seed([fx, fy, cx, cy, tilt_x, tilt_y]: SeedNumbers) -> CandidateSeed {
    CandidateSeed {
        reference_k: FxFyCxCy { fx, fy, cx, cy },
        sensor: ScheimpflugParams { tilt_x, tilt_y },
    }
}

/// The first list, with the decomposition seeds of the script that runs.
///
/// # Errors
///
/// As the published function: a tilt seed that isn't finite.
pub fn initial_seed_grid(
    dataset: &PlanarDataset,
    base: &FxFyCxCy<Real>,
    options: &ScheimpflugIntrinsicsInitOptions,
) -> Result<Vec<SeedNumbers>, Error> {
    let seeds = super::initial_seed_grid(dataset, base, options)?;
    Ok(seeds.iter().map(numbers).collect())
}

/// The list around a best seed, whose camera the new seeds take.
pub fn local_seed_grid(
    best: SeedNumbers,
    step: Real,
    options: &ScheimpflugIntrinsicsInitOptions,
) -> Vec<SeedNumbers> {
    let best = candidate_seed(best);
    let seeds = super::local_seed_grid(best.reference_k, best.sensor, step, options);
    seeds.iter().map(numbers).collect()
}

/// # Errors
///
/// As the published function: too few views or an option out of range.
pub fn validate_options(
    dataset: &PlanarDataset,
    options: &ScheimpflugIntrinsicsInitOptions,
) -> Result<(), Error> {
    super::validate_options(dataset, options)
}

/// # Errors
///
/// As the published function: a view with fewer than four points.
pub fn untilt_dataset(
    dataset: &PlanarDataset,
    reference_k: &FxFyCxCy<Real>,
    sensor: ScheimpflugParams,
) -> Result<PlanarDataset, Error> {
    super::untilt_dataset(dataset, reference_k, sensor)
}

/// # Errors
///
/// As the published function: a view with fewer than four points.
pub fn ideal_dataset(
    dataset: &PlanarDataset,
    intrinsics: &FxFyCxCy<Real>,
    distortion: &BrownConrady5<Real>,
    sensor: ScheimpflugParams,
) -> Result<PlanarDataset, Error> {
    super::ideal_dataset(dataset, intrinsics, distortion, sensor)
}

pub fn observed_pixel_center(dataset: &PlanarDataset) -> Pt2 {
    super::observed_pixel_center(dataset)
}

pub fn damp_seed_distortion(distortion: BrownConrady5<Real>) -> BrownConrady5<Real> {
    super::damp_seed_distortion(distortion)
}

pub fn distortion_complexity(distortion: &BrownConrady5<Real>) -> Real {
    super::distortion_complexity(distortion)
}

pub fn tilt_complexity(sensor: ScheimpflugParams) -> Real {
    super::tilt_complexity(sensor)
}

pub fn principal_point_complexity(intrinsics: &FxFyCxCy<Real>, center: Pt2) -> Real {
    super::principal_point_complexity(intrinsics, center)
}

pub fn mean_reproj_error(
    dataset: &PlanarDataset,
    camera: &PinholeCamera,
    sensor: ScheimpflugParams,
    poses: &[Iso3],
) -> Real {
    super::mean_reproj_error(dataset, camera, sensor, poses)
}
