//! Zhang's closed form, from the six numbers of the conic on.

use vision_calibration_linear::Error;
use vision_calibration_linear::zhang_intrinsics::PlanarIntrinsicsLinearInit;
use words::{Reader, float_words};

/// The refusal's number for each case of `DegenerateViews`.
const DEGENERATE: u64 = 16;

pub fn conic_to_camera(input: &mut Reader) -> Result<Vec<u64>, String> {
    let b = input.floats()?;
    match PlanarIntrinsicsLinearInit::from_homographies(&b) {
        Ok(camera) => {
            let mut output = vec![0];
            output.extend(float_words(&[camera.fx, camera.fy, camera.cx, camera.cy]));
            Ok(output)
        }
        Err(Error::DegenerateViews { .. }) => Ok(vec![DEGENERATE]),
        Err(other) => Err(format!("an error without a number: {other}")),
    }
}
