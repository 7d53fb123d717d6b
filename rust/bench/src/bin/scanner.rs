//! The scanner as a program: scans standard input and prints the counts. It prints no line for a message.

#![forbid(unsafe_code)]

use bench::scanner::Scanner;
use bench::PIECE;
use std::io::{self, Read};

fn main() -> io::Result<()> {
    let mut scanner = Box::<Scanner>::default();
    let mut piece = vec![0; PIECE];
    let mut input = io::stdin().lock();
    loop {
        let count = input.read(&mut piece)?;
        if count == 0 {
            break;
        }
        scanner.feed(&piece[..count]);
    }
    let counts = scanner.counts();
    println!("messages {} skipped {} held {}", counts.messages, counts.skipped, counts.held);
    Ok(())
}
