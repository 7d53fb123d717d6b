//! The tables that the benchmark prints.

mod feeds;
mod files;
mod growth;

pub use feeds::{print_silences, print_single_feeds};
pub use files::{print_files, print_small_pieces};
pub use growth::print_growth;
