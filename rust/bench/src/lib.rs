//! What the benchmark runs: generated files, and what is fed with them: the library, two scanners written for the purpose, and the floor
//! programs.

#![forbid(unsafe_code)]

pub mod drain;
pub mod fast_scanner;
pub mod files;
pub mod floor;
pub mod library;
pub mod programs;
pub mod scanner;
pub mod seek;
pub mod side;
pub mod single;
pub mod sums;
pub mod tables;
pub mod timing;

/// What was found in a file. All sides count it, so that all are seen to do the same.
#[derive(Clone, Copy, Debug, Default, PartialEq, Eq)]
pub struct Counts {
    /// Messages, good and damaged.
    pub messages: u64,
    /// Bytes skipped, with the one of each damaged message.
    pub skipped: u64,
    /// Bytes held at the end.
    pub held: u64,
}

/// The size of the pieces that a file is fed in.
pub const PIECE: usize = 32 * 1024;
