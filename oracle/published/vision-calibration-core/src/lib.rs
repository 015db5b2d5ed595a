//! The published files of this crate that the compared functions need, with the names that the
//! other published files import from its root.

// The modules of published text, each declared with the path of its patched copy.
include!(concat!(env!("OUT_DIR"), "/modules.rs"));

pub mod given_tilt;

pub use camera::Camera;
pub use distortion::{BrownConrady5, DistortionModel};
pub use error::Error;
pub use intrinsics::{FxFyCxCy, IntrinsicsModel};
pub use math::{Iso3, Mat3, Mat4, Pt2, Pt3, Real, Vec3};
pub use observation::{CorrespondenceView, PointCovariance};
pub use pinhole_camera::{PinholeCamera, make_pinhole_camera};
pub use projection::{Pinhole, ProjectionModel, Ray};
pub use sensor::{HomographySensor, IdentitySensor, ScheimpflugParams, SensorModel};
pub use view::{NoMeta, PlanarDataset, View};
