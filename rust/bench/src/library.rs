//! The library, through its wrapper: one port, fed piece by piece, each piece until it is used up. What it counts are the board's
//! own totals.

use crate::{Counts, PIECE};
use ketphiroj::{Board, Outcome, Profile, PAGE};

/// A board with a page that is blank at first; port 0 is fed. At the start of a memory page: where the bytes that each feed clears lie
/// across two of them, a feed takes longer.
#[repr(align(4096))]
pub struct Library {
    board: Board,
    page: [u8; PAGE],
}

impl Default for Library {
    fn default() -> Library {
        let page = [0xFF; PAGE];
        let board = Board::start(Profile::Full, &page).expect("a blank page");
        Library { board, page }
    }
}

impl Library {
    pub fn feed(&mut self, mut piece: &[u8]) {
        let mut room = [0; Board::REPLY];
        while let Outcome::Reported { taken, .. } =
            self.board.feed(0, piece, &mut room, &mut self.page).expect("a sound board and page")
        {
            piece = &piece[taken..];
        }
    }

    pub fn counts(&self) -> Counts {
        let totals = &self.board.tally0;
        let messages = totals.errors.iter().sum();
        Counts { messages, skipped: totals.skipped, held: self.board.first.held as u64 }
    }
}

/// Feeds a file piece by piece.
pub fn run(file: &[u8]) -> Counts {
    let mut library = Library::default();
    file.chunks(PIECE).for_each(|piece| library.feed(piece));
    library.counts()
}
