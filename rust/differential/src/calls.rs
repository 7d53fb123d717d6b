//! The calls under test.

use crate::wrapper::Wrapper;
use ketphiroj::ffi::{self, FlatField, FlatPage, FlatReply, FlatValues, Started, StartedInPlace, Stepped, Written};
use ketphiroj::{Board, Tally};
use plain::{Profile, Reckoned, Told};

/// What a feed or a silence answers, and the board afterwards.
pub struct Fed {
    pub number: u8,
    pub taken: usize,
    pub skipped: usize,
    pub error: u8,
    pub saved: bool,
    pub board: Board,
}

/// What a call in place is given, as the C interface has it: the named port's bytes and totals, which may be of any lengths, and
/// the rest of the board.
pub struct InPlace<'a> {
    pub port: u8,
    pub bytes: &'a mut [u8],
    /// Of it the held counts of both ports, the settings and the profile.
    pub board: &'a Board,
    pub quiet: bool,
    pub totals: &'a mut [u64],
    pub chunk: &'a [u8],
    pub room: &'a mut [u8],
    pub page: &'a mut [u8],
}

/// What the writer of one field is given beside the payload.
#[derive(Clone, Copy, Debug)]
pub struct FieldGiven {
    pub kind: u8,
    pub code: u8,
    pub function: u8,
    pub value: u32,
}

/// What the writer of numbered commands is given.
#[derive(Clone, Copy, Debug)]
pub struct NumberedGiven {
    pub number: u32,
    pub code: u8,
    pub function: u8,
    pub value: u32,
}

impl Fed {
    fn new(stepped: Stepped, board: Board) -> Fed {
        let Stepped { number, taken, skipped, error, saved, .. } = stepped;
        Fed { number, taken, skipped, error, saved, board }
    }
}

/// A feed or a silence of arrays of any lengths.
pub fn call_in_place(given: &mut InPlace) -> Stepped {
    let InPlace { port, bytes, board, quiet, totals, chunk, room, page } = given;
    let Board { first, second, settings, readonly, .. } = board;
    let (first, second) = (first.held, second.held);
    ffi::call_in_place(*port, bytes, first, second, *settings, *readonly, *quiet, totals, chunk, room, page)
}

/// The driver's record of a call.
pub fn count(tally: &mut Tally, told: &Told) {
    let Told { number, taken, skipped, error, before, after } = *told;
    ffi::count(tally, number, taken, skipped, error, before, after)
}

/// Feeds a copy of a board.
pub fn feed(port: u8, mut board: Board, chunk: &[u8], room: &mut [u8], page: &mut [u8]) -> Fed {
    Fed::new(ffi::feed_in_place(port, &mut board, chunk, room, page), board)
}

/// A silence of a copy of a board.
pub fn silence(port: u8, mut board: Board, room: &mut [u8], page: &mut [u8]) -> Fed {
    Fed::new(ffi::silence_in_place(port, &mut board, room, page), board)
}

/// The library's calls. An implementation changes some of them to plant a fault.
pub trait Calls: Wrapper {
    fn start(&self, readonly: bool, page: &[u8]) -> Started {
        ffi::start(readonly, page)
    }

    fn start_in_place(&self, readonly: bool, first: &mut [u8], second: &mut [u8], page: &[u8]) -> StartedInPlace {
        ffi::start_in_place(readonly, first, second, page)
    }

    fn feed(&self, port: u8, board: Board, chunk: &[u8], room: &mut [u8], page: &mut [u8]) -> Fed {
        feed(port, board, chunk, room, page)
    }

    fn silence(&self, port: u8, board: Board, room: &mut [u8], page: &mut [u8]) -> Fed {
        silence(port, board, room, page)
    }

    fn call_in_place(&self, given: &mut InPlace) -> Stepped {
        call_in_place(given)
    }

    fn count(&self, tally: &mut Tally, told: &Told) {
        count(tally, told)
    }

    fn check_message(&self, message: &[u8]) -> u8 {
        ffi::check_message(message)
    }

    fn write_message(&self, kind: u8, payload: &[u8], room: &mut [u8]) -> Written {
        ffi::write_message(kind, payload, room)
    }

    fn write_command(&self, code: u8, function: u8, value: u32, room: &mut [u8]) -> Written {
        ffi::write_command(code, function, value, room)
    }

    fn write_numbered(&self, given: &NumberedGiven, room: &mut [u8]) -> Written {
        let NumberedGiven { number, code, function, value } = *given;
        ffi::write_numbered(number, code, function, value, room)
    }

    fn append_field(&self, given: &FieldGiven, length: usize, room: &mut [u8]) -> Written {
        let FieldGiven { kind, code, function, value } = *given;
        ffi::append_field(kind, code, function, value, length, room)
    }

    fn read_reply(&self, message: &[u8], row: usize) -> FlatReply {
        ffi::read_reply(message, row)
    }

    fn read_field(&self, message: &[u8], k: usize) -> FlatField {
        ffi::read_field(message, k)
    }

    fn copy_field(&self, message: &[u8], k: usize, room: &mut [u8]) -> Written {
        ffi::copy_field(message, k, room)
    }

    fn write_data(&self, acceleration: [u32; 3], rate: [u32; 3], room: &mut [u8]) -> Written {
        ffi::write_data(acceleration, rate, room)
    }

    fn check_page(&self, page: &[u8]) -> u8 {
        ffi::check_page(page)
    }

    fn read_page(&self, page: &[u8]) -> FlatPage {
        ffi::read_page(page)
    }

    fn write_page(&self, values: FlatValues, page: &mut [u8]) -> u8 {
        ffi::write_page(values, page)
    }

    fn copy_body(&self, saved: &[u8], factory: &[u8], code: u8, room: &mut [u8]) -> Written {
        ffi::copy_body(saved, factory, code, room)
    }

    fn factory_page(&self, room: &mut [u8]) -> Written {
        ffi::factory_page(room)
    }

    /// The answer that the reckoning's is compared with. All feeds are compared with the plain feed first, so a fault in a
    /// feed would never come as far as this.
    fn answer_reckoned(&self, answer: Reckoned) -> Reckoned {
        answer
    }

    /// The board that the reckoning's is compared with, at the end of a list.
    fn board_reckoned(&self, board: Board) -> Board {
        board
    }

    /// The profile that the plain reading of two runs is started in.
    fn plain_profile(&self, profile: Profile) -> Profile {
        profile
    }
}

/// The library as it is.
pub struct Library;

impl Calls for Library {}

impl Wrapper for Library {}
