//! The floor programs: a feed in place written by hand for speed alone, which does all that a feed must do today. They say what a feed
//! costs at the least, with one call for each message and the arguments that the library has.
//!
//! There are two, which differ in how a field is handled: [`Branching`] and [`Selecting`].

mod feed;
mod field;
mod message;
mod page;
mod reply;

pub use feed::feed_in_place;
pub use field::{Branching, Fields, Selecting};

use crate::Counts;
use ketphiroj::ffi::TOTALS;
use ketphiroj::{Board, Port, Settings, PAGE};
use std::marker::PhantomData;

/// A board with a page that is blank at first; port 0 is fed. At the start of a memory page, as the library's is.
#[repr(align(4096))]
pub struct Floor<F> {
    bytes: [u8; Port::ROOM],
    held: usize,
    settings: Settings,
    totals: [u64; TOTALS],
    page: [u8; PAGE],
    program: PhantomData<F>,
}

impl<F> Default for Floor<F> {
    fn default() -> Floor<F> {
        let settings = Settings { baud: 115200, accelerometer: 2, gyroscope: 3 };
        let (bytes, totals, page) = ([0; Port::ROOM], [0; TOTALS], [0xFF; PAGE]);
        Floor { bytes, held: 0, settings, totals, page, program: PhantomData }
    }
}

impl<F: Fields> Floor<F> {
    /// Feeds a piece until it is used up.
    pub fn feed(&mut self, mut piece: &[u8]) {
        let mut room = [0; Board::REPLY];
        loop {
            let Floor { bytes, held, settings, totals, page, .. } = self;
            let stepped = feed_in_place::<F>(0, bytes, *held, 0, *settings, false, totals, piece, &mut room, page);
            (self.held, self.settings) = (stepped.held, stepped.settings);
            match stepped.number {
                0 => piece = &piece[stepped.taken..],
                1 => return,
                number => panic!("refused with {number}"),
            }
        }
    }

    pub fn counts(&self) -> Counts {
        let messages = self.totals[3..].iter().sum();
        Counts { messages, skipped: self.totals[1], held: self.held as u64 }
    }
}
