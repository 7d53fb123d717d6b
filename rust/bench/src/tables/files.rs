//! The files in large pieces, and some of them in small ones.

use crate::files::File;
use crate::programs::Programs;
use crate::timing::{compare, Times};
use crate::PIECE;

const LENGTH: usize = 16 << 20;

/// False headers take a hundred times as long as noise: a part of the length tells as much.
const LENGTH_OF_FALSE_HEADERS: usize = 4 << 20;

/// Of files in small pieces, of which each byte costs as much as a message does else.
const LENGTH_IN_SMALL_PIECES: usize = 1 << 20;

fn print_heading(first: &str) {
    print!(
        "{first:<20} {:>8} {:>9} | {:>8} {:>8} {:>8} {:>9} |",
        "messages", "skipped", "library", "scanner", "fast", "floor"
    );
    print!(" {:>7} {:>7} {:>7} | {:>7}", "scanner", "fast", "floor", "ns/mess");
}

fn print_row(name: &str, times: &Times) {
    let Times { library, scanner, fast, counts, .. } = *times;
    let (floor, program) = times.floor();
    print!(
        "{name:<20} {:>8} {:>9} | {library:>8.1} {scanner:>8.1} {fast:>8.1} {floor:>7.1} {program} |",
        counts.messages, counts.skipped
    );
    let nanoseconds = library * 1e6 / counts.messages.max(1) as f64;
    print!(" {:>7.2} {:>7.2} {:>7.2} | {nanoseconds:>7.0}", library / scanner, library / fast, library / floor);
}

/// The files in pieces of 32 KiB, with the programs where the lister is built.
pub fn print_files(runs: u32, programs: Option<&Programs>) {
    println!("files of 16 MiB, that of false headers of 4 MiB, in pieces of 32 KiB: ms, the smallest of {runs} runs for each MiB");
    println!("scanner: the plain one; fast: the one for speed; floor: the faster of the floor programs, b with branches, f with few");
    print_heading("");
    println!("{}", if programs.is_some() { " |   lister  scanner  ratio" } else { "" });
    for file in File::ALL {
        let length = if file == File::FalseHeaders { LENGTH_OF_FALSE_HEADERS } else { LENGTH };
        let bytes = file.bytes(length);
        print_row(file.name(), &compare(file.name(), &bytes, PIECE, runs));
        match programs.map(|programs| programs.compare(&bytes, runs)) {
            Some((lister, scanner)) => println!(" | {lister:>8.1} {scanner:>8.1} {:>6.2}", lister / scanner),
            None => println!(),
        }
    }
    if programs.is_none() {
        println!("target/bin/lister is not built: no times of programs");
    }
}

/// Three files in pieces of 1 and of 16 bytes.
pub fn print_small_pieces(runs: u32) {
    println!("1 MiB of a file in small pieces, ms");
    print_heading("");
    println!();
    for size in [1, 16] {
        for file in [File::ShortCommands, File::DataMessages, File::LongMessages] {
            let name = format!("{:>2}: {}", size, file.name());
            print_row(&name, &compare(&name, &file.bytes(LENGTH_IN_SMALL_PIECES), size, runs));
            println!();
        }
    }
}
