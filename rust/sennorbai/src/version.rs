//! The version of the library.

use core::fmt;

use crate::boundary;

/// A version, by its three numbers. It is shown as `0.14.0` is, and a later one is the greater.
#[derive(Clone, Copy, Debug, PartialEq, Eq, PartialOrd, Ord, Hash)]
pub struct Version {
    /// The first number.
    pub major: u16,
    /// The second.
    pub minor: u16,
    /// The third.
    pub patch: u16,
}

/// The version of the library that is linked. That of this crate is the same, unless another library was linked in its place.
///
/// ```
/// assert_eq!(sennorbai::version().to_string(), env!("CARGO_PKG_VERSION"));
/// ```
pub fn version() -> Version {
    let number = boundary::version();
    Version { major: (number >> 32) as u16, minor: (number >> 16) as u16, patch: number as u16 }
}

impl fmt::Display for Version {
    fn fmt(&self, f: &mut fmt::Formatter<'_>) -> fmt::Result {
        write!(f, "{}.{}.{}", self.major, self.minor, self.patch)
    }
}
