//! How the time of a feed grows with what is fed.

use crate::single::Case;
use plain::generate::Rng;

/// Chunks of noise in which no message opens.
fn noise(length: usize) -> Vec<u8> {
    let mut bytes = Rng::new(length as u64).bytes(length);
    // No two A5 stand beside each other, and none at the end: nothing is reported and nothing held.
    for place in 1..length {
        if bytes[place - 1] == 0xA5 && bytes[place] == 0xA5 {
            bytes[place] = 0;
        }
    }
    bytes[length - 1] = 0;
    bytes
}

/// The constant and the slope of the line from which the points' squared distances are least.
pub fn line(points: &[(f64, f64)]) -> (f64, f64) {
    let count = points.len() as f64;
    let (sum_x, sum_y) = points.iter().fold((0.0, 0.0), |(x, y), point| (x + point.0, y + point.1));
    let (mean_x, mean_y) = (sum_x / count, sum_y / count);
    let spread: f64 = points.iter().map(|(x, _)| (x - mean_x).powi(2)).sum();
    let common: f64 = points.iter().map(|(x, y)| (x - mean_x) * (y - mean_y)).sum();
    let slope = common / spread;
    (mean_y - slope * mean_x, slope)
}

fn print_cases(name: &str, chunks: &[Vec<u8>], runs: u32) {
    println!("{name:<28} {:>8} {:>9} {:>9}", "bytes", "ns", "ns/byte");
    let mut points = Vec::new();
    for chunk in chunks {
        let (bytes, time) = (chunk.len() as f64, Case::on_blank_page(chunk).nanoseconds(runs));
        println!("{:<28} {bytes:>8} {time:>9.0} {:>9.3}", "", time / bytes);
        points.push((bytes, time));
    }
    let (constant, slope) = line(&points);
    println!("{:<28} {constant:.0} ns and {slope:.3} ns for each byte, by least squares", "");
}

/// Noise in growing chunks, and messages of growing length.
pub fn print_growth(runs: u32) {
    println!("how the time of one feed grows with what is fed");
    let chunks: Vec<Vec<u8>> = (6..=16).map(|bits| noise(1 << bits)).collect();
    print_cases("noise", &chunks, runs);
    let payloads = [0, 2, 10, 26, 58, 90, 122, 154, 186, 218, 250, 255];
    let messages: Vec<Vec<u8>> = payloads.map(|length| plain::message(0xA2, &vec![0x11; length])).to_vec();
    print_cases("a message of type A2", &messages, 40 * runs);
}

/// On a line, and on points about one.
#[test]
fn least_squares() {
    assert_eq!(line(&[(1.0, 5.0), (2.0, 7.0), (4.0, 11.0)]), (3.0, 2.0));
    assert_eq!(line(&[(0.0, 1.0), (0.0, 3.0), (2.0, 5.0), (2.0, 7.0)]), (2.0, 2.0));
}
