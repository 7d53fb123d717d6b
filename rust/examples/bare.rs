//! A board in a program without std: two ports, the page in memory, and no heap.
//!
//! It is compiled by `cargo test` and is not run: a crate with a panic handler of its own does not compile where anything that it
//! uses brings std in, "duplicate lang item".

#![no_std]

use core::panic::PanicInfo;
use ketphiroj::{Board, Outcome, Profile, Refusal, PAGE};

/// The hardware, as the firmware has it.
pub trait Hardware {
    /// Stores the page whole or not at all.
    fn store(&mut self, page: &[u8; PAGE]);
    /// Sends bytes on a port.
    fn send(&mut self, port: u8, bytes: &[u8]);
}

/// The board, the copy of the page that it is lent, and the room for a reply.
pub struct Firmware {
    board: Board,
    page: [u8; PAGE],
    room: [u8; Board::REPLY],
}

impl Firmware {
    /// Starts on the page that was stored last.
    ///
    /// # Errors
    ///
    /// [`Refusal::Page`] where the page is neither blank nor sound.
    pub fn start(page: [u8; PAGE]) -> Result<Firmware, Refusal> {
        Ok(Firmware { board: Board::start(Profile::Full, &page)?, page, room: [0; Board::REPLY] })
    }

    /// Answers what a port received.
    ///
    /// # Errors
    ///
    /// [`Refusal::Port`] where the port is not 0 or 1.
    pub fn receive(&mut self, port: u8, mut chunk: &[u8], hardware: &mut impl Hardware) -> Result<(), Refusal> {
        loop {
            let outcome = self.board.feed(port, chunk, &mut self.room, &mut self.page)?;
            chunk = &chunk[outcome.taken()..];
            let Outcome::Reported { saved, reply, .. } = outcome else { return Ok(()) };
            if saved {
                hardware.store(&self.page);
            }
            hardware.send(port, &self.room[..reply]);
        }
    }
}

#[panic_handler]
fn panic(_: &PanicInfo) -> ! {
    loop {}
}
