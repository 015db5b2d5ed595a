//! The values that the search and its geometry take and give. Their names are those of calibration-rs.

use crate::TrigError;
use crate::geometry::{cosine, sine};

/// A point: pixels, or coordinates on the sensor in focal lengths.
#[derive(Clone, Copy, Debug, Default, PartialEq)]
#[repr(C)]
pub struct Pt2 {
    /// To the right.
    pub x: f64,
    /// Downwards.
    pub y: f64,
}

/// Focal lengths and centre of a camera, in pixels.
#[derive(Clone, Copy, Debug, PartialEq)]
#[repr(C)]
pub struct FxFyCxCy {
    /// Focal length along x.
    pub fx: f64,
    /// Focal length along y.
    pub fy: f64,
    /// The centre's x.
    pub cx: f64,
    /// The centre's y.
    pub cy: f64,
}

/// Radial (`k`) and tangential (`p`) distortion.
#[derive(Clone, Copy, Debug, Default, PartialEq)]
#[repr(C)]
pub struct BrownConrady5 {
    /// Factor of r².
    pub k1: f64,
    /// Factor of r⁴.
    pub k2: f64,
    /// Factor of r⁶.
    pub k3: f64,
    /// First tangential factor.
    pub p1: f64,
    /// Second tangential factor.
    pub p2: f64,
}

/// The tilts of a sensor, in radians.
#[derive(Clone, Copy, Debug, Default, PartialEq)]
#[repr(C)]
pub struct ScheimpflugParams {
    /// About the x axis.
    pub tilt_x: f64,
    /// About the y axis.
    pub tilt_y: f64,
}

/// Sine and cosine of both tilts, for [`crate::geometry`]. `TiltTrig::try_from` works them out by the proved series.
#[derive(Clone, Copy, Debug, PartialEq)]
#[repr(C)]
pub struct TiltTrig {
    /// Sine of the tilt about x.
    pub sin_x: f64,
    /// Cosine of the tilt about x.
    pub cos_x: f64,
    /// Sine of the tilt about y.
    pub sin_y: f64,
    /// Cosine of the tilt about y.
    pub cos_y: f64,
}

impl TryFrom<ScheimpflugParams> for TiltTrig {
    type Error = TrigError;

    /// By [`sine`] and [`cosine`], as the search takes them: the same bits on every machine.
    fn try_from(sensor: ScheimpflugParams) -> Result<Self, TrigError> {
        let ScheimpflugParams { tilt_x, tilt_y } = sensor;
        let [sin_x, cos_x] = [sine(tilt_x)?, cosine(tilt_x)?];
        let [sin_y, cos_y] = [sine(tilt_y)?, cosine(tilt_y)?];
        Ok(Self { sin_x, cos_x, sin_y, cos_y })
    }
}

/// A camera with distortion.
#[derive(Clone, Copy, Debug, PartialEq)]
#[repr(C)]
pub struct PinholeCamera {
    /// Focal lengths and centre.
    pub k: FxFyCxCy,
    /// Distortion.
    pub dist: BrownConrady5,
}

/// A camera and tilts for the host to start its solution from.
#[derive(Clone, Copy, Debug, PartialEq)]
#[repr(C)]
pub struct Seed {
    /// The camera to start from.
    pub reference_k: FxFyCxCy,
    /// The tilts to try.
    pub sensor: ScheimpflugParams,
}

impl Seed {
    /// The six numbers in the order of a seed list: fx, fy, cx, cy, tilt x, tilt y.
    #[must_use]
    pub fn numbers(self) -> [f64; 6] {
        let (k, sensor) = (self.reference_k, self.sensor);
        [k.fx, k.fy, k.cx, k.cy, sensor.tilt_x, sensor.tilt_y]
    }

    /// The seed of six numbers in that order.
    #[must_use]
    pub fn from_numbers([fx, fy, cx, cy, tilt_x, tilt_y]: [f64; 6]) -> Self {
        Self {
            reference_k: FxFyCxCy { fx, fy, cx, cy },
            sensor: ScheimpflugParams { tilt_x, tilt_y },
        }
    }
}

/// A scored candidate: the best of a run.
#[derive(Clone, Copy, Debug, PartialEq)]
#[repr(C)]
pub struct Winner {
    /// Its number, counted from 0 over the run.
    pub number: usize,
    /// Its camera, with damped distortion.
    pub camera: PinholeCamera,
    /// Its tilts.
    pub sensor: ScheimpflugParams,
    /// The mean error of its counted rows, in pixels.
    pub mean_reproj_error: f64,
    /// The mean and the penalties; lower is better.
    pub score: f64,
}
