//! Feeds one byte to a port that holds the front of a longer message, again and again, and does nothing else, for a profiler:
//! `one_byte CASE FEEDS`, CASE counted from 0.

#![forbid(unsafe_code)]

use bench::single;

fn main() {
    let numbers: Vec<usize> = std::env::args().skip(1).map(|text| text.parse().expect("a number")).collect();
    let [case, feeds] = numbers[..] else {
        eprintln!("usage: one_byte CASE FEEDS");
        std::process::exit(2);
    };
    let case = &single::one_byte()[case];
    case.feed_often(feeds as u32);
    println!("{}: feeds: {feeds}", case.name);
}
