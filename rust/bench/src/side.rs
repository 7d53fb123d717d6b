//! What is compared: the library, the two scanners and the floor programs, each fed piece by piece.

use crate::fast_scanner::FastScanner;
use crate::floor::{Branching, Fields, Floor, Selecting};
use crate::library::Library;
use crate::scanner::Scanner;
use crate::Counts;

/// One of those compared.
pub trait Side {
    /// Reads a piece to its end.
    fn feed(&mut self, piece: &[u8]);

    /// What was found so far.
    fn counts(&self) -> Counts;

    /// Reads bytes in pieces of a size.
    fn feed_in_pieces(&mut self, bytes: &[u8], size: usize) {
        bytes.chunks(size).for_each(|piece| self.feed(piece));
    }
}

/// How many are compared.
pub const SIDES: usize = 5;

/// All of them, at their start: the library, the plain scanner, the one for speed, the floor programs with branches and with few.
pub fn all() -> [Box<dyn Side>; SIDES] {
    [
        Box::<Library>::default(),
        Box::<Scanner>::default(),
        Box::<FastScanner>::default(),
        Box::<Floor<Branching>>::default(),
        Box::<Floor<Selecting>>::default(),
    ]
}

/// The methods of the same names.
macro_rules! side {
    ([$($parameters:tt)*] $kind:ty) => {
        impl $($parameters)* Side for $kind {
            fn feed(&mut self, piece: &[u8]) {
                self.feed(piece);
            }

            fn counts(&self) -> Counts {
                self.counts()
            }
        }
    };
}

side!([] Library);
side!([] Scanner);
side!([] FastScanner);
side!([<F: Fields>] Floor<F>);
