//! The version of the library.

use crate::ffi;
use std::fmt;

/// A version of the library. Versions are ordered as they follow each other, and shown as `0.1.0`.
#[derive(Clone, Copy, Debug, PartialEq, Eq, PartialOrd, Ord, Hash)]
pub struct Version {
    /// Another one where a call or a struct changed.
    pub major: u32,
    /// A larger one where calls were added.
    pub minor: u32,
    /// The number of the release among those with the same calls.
    pub patch: u32,
}

impl fmt::Display for Version {
    fn fmt(&self, f: &mut fmt::Formatter) -> fmt::Result {
        write!(f, "{}.{}.{}", self.major, self.minor, self.patch)
    }
}

/// The version of the library that is linked.
pub fn library_version() -> Version {
    let number = ffi::version();
    Version { major: number >> 16, minor: number >> 8 & 0xFF, patch: number & 0xFF }
}
