//! All 2^32 patterns of an axis, written to a data message and read back.
//!
//! `axes N` runs the first 2^N patterns. In one pass each of the six axes goes through all patterns: the other five are
//! the pattern under one-to-one maps.

#![forbid(unsafe_code)]

use ketphiroj::ffi::{self, FlatField};
use std::process::ExitCode;
use std::time::Instant;

/// The six axes of a pattern. Each map is one-to-one on 32 bits.
fn axes(pattern: u32) -> [[u32; 3]; 2] {
    let odd_product = pattern.wrapping_mul(0x9E37_79B1);
    [[pattern, !pattern, pattern.rotate_left(8)], [pattern.swap_bytes(), odd_product, pattern ^ 0x7FA5_A5A5]]
}

/// What the 34 bytes must be, but for the sums, which the reader tests.
fn expected([acceleration, rate]: [[u32; 3]; 2]) -> [u8; 32] {
    let mut bytes = [0; 32];
    bytes[..6].copy_from_slice(&[0xA5, 0xA5, 0xA2, 28, 0x81, 12]);
    bytes[18..20].copy_from_slice(&[0x82, 12]);
    for axis in 0..3 {
        bytes[6 + 4 * axis..10 + 4 * axis].copy_from_slice(&acceleration[axis].to_be_bytes());
        bytes[20 + 4 * axis..24 + 4 * axis].copy_from_slice(&rate[axis].to_be_bytes());
    }
    bytes
}

fn read_back(message: &[u8], k: usize, code: u8, [x, y, z]: [u32; 3]) -> bool {
    ffi::read_field(message, k) == FlatField { number: 0, code, place: 6 + 14 * k, size: 12, x, y, z }
}

fn right(pattern: u32) -> bool {
    let [acceleration, rate] = axes(pattern);
    let mut room = [0; 34];
    let written = ffi::write_data(acceleration, rate, &mut room);
    (written.number, written.length) == (0, 34)
        && room[..32] == expected([acceleration, rate])
        && read_back(&room, 0, 0x81, acceleration)
        && read_back(&room, 1, 0x82, rate)
}

/// A comparison that cannot fail would be none.
fn another_axis_is_told() -> bool {
    let mut room = [0; 34];
    let written = ffi::write_data([1, 2, 3], [4, 5, 6], &mut room);
    written.number == 0 && read_back(&room, 0, 0x81, [1, 2, 3]) && !read_back(&room, 0, 0x81, [1, 2, 4])
}

/// Runs the patterns in 64 parts, with a line of progress for each.
fn run(count: u64) -> u64 {
    let begin = Instant::now();
    let mut wrong = 0;
    let part = (count / 64).max(1);
    for pattern in 0..count {
        if !right(pattern as u32) {
            wrong += 1;
            if wrong <= 10 {
                println!("DIFFERENCE at the pattern {pattern:08X}");
            }
        }
        if (pattern + 1) % part == 0 {
            eprintln!("{} of {count} patterns, {:.0} s", pattern + 1, begin.elapsed().as_secs_f64());
        }
    }
    let seconds = begin.elapsed().as_secs_f64();
    let whole = seconds / count as f64 * (1u64 << 32) as f64;
    println!("{count} patterns in {seconds:.1} s; all 2^32 take {whole:.0} s at this rate");
    wrong
}

fn main() -> ExitCode {
    let power: u32 = std::env::args().nth(1).map_or(32, |text| text.parse().expect("a power of two, 0 to 32"));
    assert!(power <= 32, "there are 2^32 patterns");
    let wrong = run(1 << power);
    let told = another_axis_is_told();
    let passed = u32::from(wrong == 0) + u32::from(told);
    println!("{passed} passed, {} failed", 2 - passed);
    if passed == 2 {
        ExitCode::SUCCESS
    } else {
        ExitCode::FAILURE
    }
}
