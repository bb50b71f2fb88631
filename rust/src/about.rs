//! What the archive says of itself.

use crate::sys::{self, Limits};
use std::{error, fmt};

/// The version of the archive's face.
pub fn version() -> u32 {
    sys::rimemaple_version()
}

/// The limits that the archive was built with.
pub fn limits() -> Limits {
    sys::rimemaple_limits()
}

/// Whether the archive is of the version that this package is for.
pub fn check() -> Result<(), Mismatch> {
    match version() {
        sys::VERSION => Ok(()),
        archive => Err(Mismatch { archive }),
    }
}

/// An archive of another version.
#[derive(Clone, Copy, Debug, PartialEq, Eq)]
pub struct Mismatch {
    /// The archive's version.
    pub archive: u32,
}

impl fmt::Display for Mismatch {
    fn fmt(&self, f: &mut fmt::Formatter) -> fmt::Result {
        let (ours, archive) = (sys::VERSION, self.archive);
        write!(
            f,
            "librimemaple.a has version {archive} of its face, this package is for {ours}"
        )
    }
}

impl error::Error for Mismatch {}
