//! Single feeds, and silences beside feeds.

use crate::{drain, single};

/// What a feed of each kind takes.
pub fn print_single_feeds(runs: u32) {
    println!("single feeds, ns");
    for case in single::cases() {
        println!("{:<45} {:>5.0}", case.name, case.nanoseconds(40 * runs));
    }
}

/// What is held is read to its end by silences, beside feeds of as many bytes.
pub fn print_silences(runs: u32) {
    println!("260 bytes: held and read to their end by silences, or fed, ns");
    println!("{:<26} {:>8} {:>8} {:>7} | {:>7} {:>7} {:>6}", "", "messages", "silences", "ns", "feeds", "ns", "ratio");
    for case in drain::cases() {
        let (drained, fed) = case.measure(40 * runs);
        print!("{:<26} {:>8} {:>8} {:>7.0}", case.name, drained.messages, drained.calls, drained.nanoseconds);
        println!(" | {:>7} {:>7.0} {:>6.2}", fed.calls, fed.nanoseconds, drained.nanoseconds / fed.nanoseconds);
    }
}
