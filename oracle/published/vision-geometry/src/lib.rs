//! The published files of this crate that the compared functions need.

// The modules of published text, each declared with the path of its patched copy.
include!(concat!(env!("OUT_DIR"), "/modules.rs"));

pub use error::{GeometryError, Result};
