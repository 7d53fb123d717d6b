//! The library against two scanners and the floor programs, on generated files; and, if it is built, the program that lists a
//! recording against the plain scanner as a program. Then files in small pieces, single feeds, how a feed's time grows, and
//! silences beside feeds.
//!
//! All runs are interleaved, and the smallest times count. `RUNS` changes how many there are.

#![forbid(unsafe_code)]

use bench::programs::Programs;
use bench::tables;

fn main() {
    let runs = std::env::var("RUNS").map_or(5, |text| text.parse().expect("RUNS is a number"));
    tables::print_files(runs, Programs::built().as_ref());
    tables::print_small_pieces(runs);
    tables::print_single_feeds(runs);
    tables::print_growth(runs);
    tables::print_silences(runs);
}
