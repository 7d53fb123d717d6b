//! A scanner written for the purpose: it finds the messages that the board finds, tests their sums and counts. It writes
//! no reply, has no settings and no page.
//!
//! The undecided end of a piece is kept in front of the next one, so that the scan always goes over one row of bytes.

use crate::{Counts, PIECE};

/// The most that is undecided: a message of 261 bytes but for one.
const MOST_HELD: usize = 260;

/// At the start of a memory page, as the library's board is.
#[repr(align(4096))]
pub struct Scanner {
    row: [u8; MOST_HELD + PIECE],
    held: usize,
    counts: Counts,
}

impl Default for Scanner {
    fn default() -> Scanner {
        Scanner { row: [0; MOST_HELD + PIECE], held: 0, counts: Counts::default() }
    }
}

impl Scanner {
    /// Scans a piece of at most [`PIECE`] bytes.
    pub fn feed(&mut self, piece: &[u8]) {
        let end = self.held + piece.len();
        self.row[self.held..end].copy_from_slice(piece);
        let stands = scan(&self.row[..end], &mut self.counts);
        self.row.copy_within(stands..end, 0);
        self.held = end - stands;
    }

    pub fn counts(&self) -> Counts {
        Counts { held: self.held as u64, ..self.counts }
    }
}

/// Scans as far as it is decided, and says where it stands then.
fn scan(row: &[u8], counts: &mut Counts) -> usize {
    let mut at = 0;
    loop {
        let Some(noise) = row[at..].iter().position(|&byte| byte == 0xA5) else {
            counts.skipped += (row.len() - at) as u64;
            return row.len();
        };
        counts.skipped += noise as u64;
        at += noise;
        let rest = &row[at..];
        if rest.len() > 1 && rest[1] != 0xA5 {
            counts.skipped += 1;
            at += 1;
            continue;
        }
        if rest.len() > 2 && rest[2] == 0xA5 {
            // A run, of which the last two may open a message; those before them are passed over at once.
            let stray = rest.iter().position(|&byte| byte != 0xA5).unwrap_or(rest.len()) - 2;
            counts.skipped += stray as u64;
            at += stray;
            continue;
        }
        if rest.len() < 4 {
            return at;
        }
        let length = usize::from(rest[3]) + 6;
        if rest.len() < length {
            return at;
        }
        counts.messages += 1;
        if sums_right(&rest[..length]) {
            at += length;
        } else {
            counts.skipped += 1;
            at += 1;
        }
    }
}

fn sums_right(message: &[u8]) -> bool {
    let (summed, sums) = message.split_at(message.len() - 2);
    let (mut f1, mut f2) = (0u8, 0u8);
    for &byte in summed {
        f1 = f1.wrapping_add(byte);
        f2 = f2.wrapping_add(f1);
    }
    sums == [f1, f2]
}
