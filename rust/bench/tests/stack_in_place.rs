//! How much of the library's own stack a start in place takes. painted/mod.rs says what that is, and how it is
//! measured; stack.rs has the feeds and the start by value.
//!
//! `cargo test --release --offline -p bench --test stack_in_place -- --nocapture` prints the figures.

#![deny(unsafe_code)]

mod painted;

use ketphiroj::{Board, Port, Settings, Tally};
use painted::{own_stack, pages, print_heading, print_row};
use raw::StartInPlace;

/// The most that a start in place may take of the library's own stack, in bytes: as for a feed. With the array of a
/// port, 260 bytes, it is over the limit.
const MOST: usize = 256;

/// The unsafe part: the call as C has it, for the reason that stack.rs has.
#[allow(unsafe_code)]
mod raw {
    use super::painted::Call;
    use ketphiroj::ffi::StartedInPlace;
    use ketphiroj::{Board, PAGE};
    use std::arch::naked_asm;
    use std::mem::MaybeUninit;

    // What a function answers is not looked at, and the one that does nothing answers what stands in the registers.
    type Function =
        unsafe extern "C" fn(bool, *mut u8, usize, *mut u8, usize, *const u8, usize) -> MaybeUninit<StartedInPlace>;

    extern "C" {
        fn ketphiroj_start_in_place(
            readonly: bool,
            first: *mut u8,
            first_length: usize,
            second: *mut u8,
            second_length: usize,
            page: *const u8,
            page_length: usize,
        ) -> MaybeUninit<StartedInPlace>;
    }

    #[unsafe(naked)]
    unsafe extern "C" fn start_nothing(
        _: bool,
        _: *mut u8,
        _: usize,
        _: *mut u8,
        _: usize,
        _: *const u8,
        _: usize,
    ) -> MaybeUninit<StartedInPlace> {
        naked_asm!("ret")
    }

    /// A start of the board where it stands.
    pub struct StartInPlace {
        first: (*mut u8, usize),
        second: (*mut u8, usize),
        page: (*const u8, usize),
    }

    impl StartInPlace {
        pub const LIBRARY: Function = ketphiroj_start_in_place;
    }

    impl Call for StartInPlace {
        type Given = (Board, [u8; PAGE]);
        type Function = Function;
        const NOTHING: Function = start_nothing;

        fn lend((board, page): &mut (Board, [u8; PAGE])) -> StartInPlace {
            StartInPlace {
                first: (board.first.bytes.as_mut_ptr(), board.first.bytes.len()),
                second: (board.second.bytes.as_mut_ptr(), board.second.bytes.len()),
                page: (page.as_ptr(), page.len()),
            }
        }

        #[inline(never)]
        fn make(&self, function: Function) {
            let StartInPlace { first, second, page } = *self;
            // SAFETY: the pointers are those of the board and the page given, which outlive this, with their lengths,
            // and do not overlap.
            unsafe { function(false, first.0, first.1, second.0, second.1, page.0, page.1) };
        }
    }
}

#[test]
fn own_stack_of_a_start_in_place() {
    let port = Port { bytes: [0x31; Port::ROOM], held: Port::ROOM };
    let settings = Settings { baud: 0, accelerometer: 0, gyroscope: 0 };
    let tally = Tally::new();
    let board = Board { first: port, second: port, settings, readonly: false, tally0: tally, tally1: tally };
    print_heading();
    let bytes = pages().map(|page| own_stack::<StartInPlace>(&(board, page), StartInPlace::LIBRARY));
    print_row("start in place", bytes);
    assert!(bytes.iter().all(|&bytes| bytes <= MOST), "start in place: over {MOST}: {bytes:?}");
}
