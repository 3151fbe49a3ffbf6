//! The version of this crate and the library's, and the number of the layout.

use std::fmt;

use crate::sys::{self, Version};

/// The version of this crate; `include/committer.h` has the same, and says when each number is raised.
pub const VERSION: Version = Version {
    major: number(env!("CARGO_PKG_VERSION_MAJOR")),
    minor: number(env!("CARGO_PKG_VERSION_MINOR")),
    patch: number(env!("CARGO_PKG_VERSION_PATCH")),
};

/// The number of the layout of what crosses, and of the tables. A library of another layout isn't linked.
pub const LAYOUT: u32 = 2;

/// The version of the library that is linked.
pub fn library_version() -> Version {
    sys::committer_library_version()
}

impl fmt::Display for Version {
    fn fmt(&self, f: &mut fmt::Formatter<'_>) -> fmt::Result {
        write!(f, "{}.{}.{}", self.major, self.minor, self.patch)
    }
}

const fn number(digits: &str) -> u32 {
    match u32::from_str_radix(digits, 10) {
        Ok(number) => number,
        Err(_) => panic!("a version has three numbers"),
    }
}
