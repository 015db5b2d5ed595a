//! The version of the linked library: it must be this crate's.

use crate::raw;
use std::fmt::{Display, Formatter, Result as FmtResult};

/// The version word that this crate is for: 65,536 times the major, 256 times the minor, and the patch number.
pub const VERSION: u32 = (number(env!("CARGO_PKG_VERSION_MAJOR")) << 16)
    | (number(env!("CARGO_PKG_VERSION_MINOR")) << 8)
    | number(env!("CARGO_PKG_VERSION_PATCH"));

const fn number(text: &str) -> u32 {
    match u32::from_str_radix(text, 10) {
        Ok(number) if number < 256 => number,
        _ => panic!("a part of the version is a number below 256"),
    }
}

/// The linked library has another version.
#[derive(Clone, Copy, Debug, PartialEq, Eq)]
pub struct VersionError {
    /// The library's version word.
    pub library: u32,
}

/// Checks that the linked library is of this crate's version. A search does so when it starts; a program that only
/// uses [`crate::geometry`] should call this first.
///
/// # Errors
///
/// The library is of another version, and nothing that it gives can be relied on.
pub fn check_version() -> Result<(), VersionError> {
    match raw::jc_version() {
        VERSION => Ok(()),
        library => Err(VersionError { library }),
    }
}

impl Display for VersionError {
    fn fmt(&self, f: &mut Formatter) -> FmtResult {
        let [_, a, b, c] = self.library.to_be_bytes();
        write!(
            f,
            "the linked libcapi.a is version {a}.{b}.{c}, and the crate jinnychair is {}: take both from one release, or build the \
             archive again",
            env!("CARGO_PKG_VERSION")
        )
    }
}

impl std::error::Error for VersionError {}
