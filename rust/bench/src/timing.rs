//! How the sides are timed: in turns, slice by slice, and the smallest time of each slice counts.

use crate::side::{self, Side, SIDES};
use crate::Counts;
use std::hint::black_box;
use std::time::Instant;

/// A file is timed in slices, and the smallest time of each slice counts: so a machine with other work spoils a slice
/// of a run and not the run.
const SLICE: usize = 1 << 20;

/// The milliseconds of each side, and what all of them found.
pub struct Times {
    /// The library's.
    pub library: f64,
    /// The plain scanner's.
    pub scanner: f64,
    /// The scanner's for speed.
    pub fast: f64,
    /// The floor programs': the one with branches, the one with few.
    pub floors: [f64; 2],
    /// What was found.
    pub counts: Counts,
}

impl Times {
    /// The smaller time of the floor programs, and a letter for the program: `b` for branches, `f` for few.
    pub fn floor(&self) -> (f64, char) {
        let [branching, selecting] = self.floors;
        if branching <= selecting {
            (branching, 'b')
        } else {
            (selecting, 'f')
        }
    }
}

/// The milliseconds that a call takes.
pub fn milliseconds(call: impl FnOnce()) -> f64 {
    let begin = Instant::now();
    call();
    begin.elapsed().as_secs_f64() * 1000.0
}

/// All sides on the same bytes in pieces of a size. They must count the same.
pub fn compare(name: &str, bytes: &[u8], size: usize, runs: u32) -> Times {
    let mut smallest = vec![[f64::MAX; SIDES]; bytes.len().div_ceil(SLICE)];
    let mut counts = Counts::default();
    for run in 0..runs as usize {
        let mut sides = side::all();
        for (place, slice) in bytes.chunks(SLICE).enumerate() {
            time_slice(&mut smallest[place], &mut sides, slice, size, run + place);
        }
        counts = sides[0].counts();
        for side in &sides {
            assert_eq!(side.counts(), counts, "not the same is counted in {name}");
        }
    }
    let [library, scanner, fast, branching, selecting] =
        std::array::from_fn(|k| smallest.iter().map(|times| times[k]).sum());
    Times { library, scanner, fast, floors: [branching, selecting], counts }
}

/// Each side once over a slice; another one is the first in each turn.
fn time_slice(smallest: &mut [f64; SIDES], sides: &mut [Box<dyn Side>; SIDES], slice: &[u8], size: usize, turn: usize) {
    // None of them waits for memory that the next has then in the cache.
    black_box(slice.iter().map(|&byte| u64::from(byte)).sum::<u64>());
    for k in 0..SIDES {
        let k = (k + turn) % SIDES;
        let time = milliseconds(|| sides[k].feed_in_pieces(slice, size));
        smallest[k] = smallest[k].min(time);
    }
}
