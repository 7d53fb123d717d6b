//! The crate, the archive and the C header are of one version.

use ketphiroj::{archive_version, VERSION};

const HEADER: &str = include_str!("../../include/ketphiroj.h");

/// The number that the header gives a macro: `#define KETPHIROJ_VERSION_MAJOR 0`.
fn defined(name: &str) -> u32 {
    let values = HEADER
        .lines()
        .filter_map(|line| line.strip_prefix("#define ")?.trim_start().strip_prefix(name)?.strip_prefix(' '));
    let values: Vec<&str> = values.map(|value| value.split("/*").next().unwrap_or(value).trim()).collect();
    assert_eq!(values.len(), 1, "{name} is not defined once: {values:?}");
    values[0].parse().unwrap_or_else(|_| panic!("{name} is {}", values[0]))
}

#[test]
fn one_version() {
    let [major, minor, patch] = ["MAJOR", "MINOR", "PATCH"].map(|part| defined(&format!("KETPHIROJ_VERSION_{part}")));
    assert_eq!(format!("{major}.{minor}.{patch}"), env!("CARGO_PKG_VERSION"));
    // So that no two versions have one number.
    assert!(minor < 100 && patch < 100);
    assert_eq!(VERSION, 10_000 * major + 100 * minor + patch);
    assert_eq!(archive_version(), VERSION);
}
