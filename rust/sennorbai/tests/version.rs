//! The version that the library tells is Cargo's.

use sennorbai::{boundary, version, Version};

#[test]
fn the_library_has_the_crate_s_version() {
    let part = |text: &str| text.parse::<u16>().unwrap();
    let due = Version {
        major: part(env!("CARGO_PKG_VERSION_MAJOR")),
        minor: part(env!("CARGO_PKG_VERSION_MINOR")),
        patch: part(env!("CARGO_PKG_VERSION_PATCH")),
    };
    assert_eq!(version(), due);
    assert_eq!(version().to_string(), env!("CARGO_PKG_VERSION"));
    assert_eq!(boundary::version(), u64::from(due.major) << 32 | u64::from(due.minor) << 16 | u64::from(due.patch));
}

#[test]
fn a_later_version_is_greater() {
    let [old, new] = [(0, 14, 65_535), (1, 0, 0)].map(|(major, minor, patch)| Version { major, minor, patch });
    assert!(old < new);
    assert_eq!(old.to_string(), "0.14.65535");
}
