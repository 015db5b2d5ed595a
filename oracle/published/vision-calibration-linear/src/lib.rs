//! The published files of this crate that the compared functions need, and stand-ins for those
//! of its files that 01 leaves out.

// The modules of published text, each declared with the path of its patched copy.
include!(concat!(env!("OUT_DIR"), "/modules.rs"));

pub mod distortion_fit;
pub mod first_kept;
pub mod iterative_intrinsics;
pub mod script;

pub use error::Error;
