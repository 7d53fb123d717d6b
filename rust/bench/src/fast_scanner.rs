//! The scanner written for speed: it does what the plain scanner does, with sums in blocks, a search in blocks for what opens a
//! message, and no copy of a piece but of its undecided end.

use crate::{seek, sums, Counts};

/// The most that is undecided: a message of 261 bytes but for one.
const MOST_HELD: usize = 260;

/// What decides all that is held: with so much of the next piece behind it the scan goes past it.
const DECIDING: usize = 261;

/// At the start of a memory page, as the other sides are: where it lies then has no part in the time.
#[repr(align(4096))]
pub struct FastScanner {
    row: [u8; MOST_HELD + DECIDING],
    held: usize,
    counts: Counts,
}

impl Default for FastScanner {
    fn default() -> FastScanner {
        FastScanner { row: [0; MOST_HELD + DECIDING], held: 0, counts: Counts::default() }
    }
}

impl FastScanner {
    /// Scans a piece of any length.
    pub fn feed(&mut self, piece: &[u8]) {
        let begin = match self.held {
            0 => 0,
            _ => match self.past_held(piece) {
                Some(begin) => begin,
                None => return,
            },
        };
        let rest = &piece[begin..];
        let end = &rest[scan(rest, rest.len(), &mut self.counts)..];
        self.row[..end.len()].copy_from_slice(end);
        self.held = end.len();
    }

    /// Scans until nothing held is left at the front, and says where that is in the piece; nothing where the piece does not decide
    /// it, and is held too.
    #[inline(never)]
    fn past_held(&mut self, piece: &[u8]) -> Option<usize> {
        let more = piece.len().min(DECIDING);
        let end = self.held + more;
        self.row[self.held..end].copy_from_slice(&piece[..more]);
        let stands = scan(&self.row[..end], self.held, &mut self.counts);
        if stands >= self.held {
            return Some(stands - self.held);
        }
        self.row.copy_within(stands..end, 0);
        self.held = end - stands;
        None
    }

    pub fn counts(&self) -> Counts {
        Counts { held: self.held as u64, ..self.counts }
    }
}

/// Scans as far as it is decided, or until the front is not before `stop`, and says where it stands then.
#[inline(always)]
fn scan(row: &[u8], stop: usize, counts: &mut Counts) -> usize {
    let mut at = 0;
    while at < stop {
        let skipped = seek::opening(&row[at..]);
        counts.skipped += skipped as u64;
        at += skipped;
        let rest = &row[at..];
        let Some(&[_, _, _, length]) = rest.first_chunk() else {
            return at;
        };
        let whole = usize::from(length) + 6;
        if rest.len() < whole {
            return at;
        }
        counts.messages += 1;
        if sums::right(rest, whole) {
            at += whole;
        } else {
            counts.skipped += 1;
            at += 1;
        }
    }
    at
}
