//! Feeds one of the files to one of the sides and does nothing else, for a profiler: `feeds FILE KIB [SIDE]`, FILE counted from 0, SIDE 0 for
//! the library (and so without it), 1 for the plain scanner, 2 for the one for speed, 3 and 4 for the floor programs.

#![forbid(unsafe_code)]

use bench::files::File;
use bench::{side, PIECE};

fn main() {
    let numbers: Vec<usize> = std::env::args().skip(1).map(|text| text.parse().expect("a number")).collect();
    let (file, kib, side) = match numbers[..] {
        [file, kib] => (file, kib, 0),
        [file, kib, side] => (file, kib, side),
        _ => {
            eprintln!("usage: feeds FILE KIB [SIDE]");
            std::process::exit(2);
        }
    };
    let file = File::ALL[file];
    let mut sides = side::all();
    sides[side].feed_in_pieces(&file.bytes(kib << 10), PIECE);
    println!("{}: {:?}", file.name(), sides[side].counts());
}
