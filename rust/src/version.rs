//! The version of this crate, and of the archive.

use crate::ffi;

/// The version of this crate as one number, 10000 * major + 100 * minor + patch. The C header's `KETPHIROJ_VERSION` is the same.
pub const VERSION: u32 = 10_000 * number_of(env!("CARGO_PKG_VERSION_MAJOR"))
    + 100 * number_of(env!("CARGO_PKG_VERSION_MINOR"))
    + number_of(env!("CARGO_PKG_VERSION_PATCH"));

/// The number that these decimal digits write. Reckoned while compiling, so that another character or a larger number is an error
/// there.
const fn number_of(digits: &str) -> u32 {
    let (digits, mut value, mut at) = (digits.as_bytes(), 0, 0);
    while at < digits.len() {
        assert!(digits[at].is_ascii_digit());
        value = 10 * value + (digits[at] - b'0') as u32;
        at += 1;
    }
    value
}

/// The version of the archive that is linked, as [`VERSION`]. Where it is another, the archive does not belong to this crate: what its calls
/// take and answer may be laid out in another way, so that no other call is to be made.
///
/// ```
/// assert_eq!(ketphiroj::archive_version(), ketphiroj::VERSION);
/// ```
#[must_use]
pub fn archive_version() -> u32 {
    ffi::version()
}
