//! Stand-in for the left-out file of this name: the estimate is the host's, so it is scripted.

use crate::Error;
use crate::distortion_fit::DistortionFitOptions;
use crate::script;
use vision_calibration_core::{PinholeCamera, PlanarDataset};

/// The options' names and types, as the published search fills them in.
#[derive(Debug, Clone, Copy)]
pub struct IterativeIntrinsicsOptions {
    pub iterations: usize,
    pub distortion_opts: DistortionFitOptions,
}

/// The base camera at a search's first call; after that, the camera of the waiting answer.
///
/// # Errors
///
/// Fails where the scripted answer is Failed.
pub fn estimate_intrinsics_iterative(
    _dataset: &PlanarDataset,
    _options: IterativeIntrinsicsOptions,
) -> Result<PinholeCamera, Error> {
    script::camera()
}
