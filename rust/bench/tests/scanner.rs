//! The scanner written for the purpose against the plain reading of the paper: the benchmark compares it with the
//! library alone, and a fault that both have would not be seen there.

#![forbid(unsafe_code)]

use bench::files::File;
use bench::scanner::Scanner;
use bench::Counts;
use plain::generate::{self, Behind, Rng};

/// What the plain scan finds in a stream.
fn plain_counts(stream: &[u8]) -> Counts {
    let mut counts = Counts { held: stream.len() as u64, ..Counts::default() };
    for event in plain::scan(stream) {
        counts.messages += u64::from(event.message().is_some());
        counts.skipped += event.skipped() as u64;
        counts.held = (stream.len() - event.after()) as u64;
    }
    counts
}

fn counts<'a>(pieces: impl Iterator<Item = &'a [u8]>) -> Counts {
    let mut scanner = Box::<Scanner>::default();
    pieces.for_each(|piece| scanner.feed(piece));
    scanner.counts()
}

/// Files in pieces of several sizes.
#[test]
fn files() {
    for file in File::ALL {
        let bytes = file.bytes(200 << 10);
        let expected = plain_counts(&bytes);
        for size in [1, 2, 3, 7, 260, 261, 4096, bench::PIECE] {
            assert_eq!(counts(bytes.chunks(size)), expected, "{} in pieces of {size}", file.name());
        }
    }
}

/// Runs of A5 before messages and noise and within messages: cut at every place, or in single bytes.
#[test]
fn runs() {
    let mut rng = Rng::new(0xA5);
    for length in 0..=300 {
        let mut streams: Vec<Vec<u8>> =
            Behind::ALL.iter().map(|&behind| generate::run_before(&mut rng, length, behind)).collect();
        streams.push(generate::run_within(&mut rng, length.min(255)));
        for stream in streams {
            let expected = plain_counts(&stream);
            assert_eq!(counts(stream.chunks(1)), expected, "{stream:02X?} in single bytes");
            for cut in 0..=stream.len() {
                let (first, second) = stream.split_at(cut);
                assert_eq!(counts([first, second].into_iter()), expected, "{stream:02X?} cut at {cut}");
            }
        }
    }
}
