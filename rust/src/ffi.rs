//! The calls of the static library: numbers and records instead of results and enums.
//!
//! This is the only module with unsafe code. Its functions are safe: a slice is lent to the library as a pointer and a
//! length for the time of the call, and the library's contracts hold for every input.
//!
//! What each call rests on: the archive that is linked is the one that `bin/build capi` writes, so the declarations
//! below are those of its functions and records. It keeps no pointer, has no state of its own, ends, does not unwind,
//! and touches no byte outside the slices that it is lent; Rattle proves that of every function. A `bool` in an answer
//! is 0 or 1.
//!
//! A board's totals are lent as a row of [`TOTALS`] numbers. A [`Tally`] is one: it is `repr(C)`, has three `u64` and an array of
//! eight and nothing else, so that the numbers stand in it in the order of its fields without a gap between them, and any
//! numbers make a `Tally`. Its size and its places are asserted at the end of this module.

#![allow(unsafe_code)]

use crate::board::{Board, Port, Settings};
use crate::tally::Tally;
use core::ptr::from_mut;
use core::slice::from_raw_parts_mut;

/// How many totals a port has: the numbers of a [`Tally`].
pub const TOTALS: usize = 11;

/// What starting answers. Where it is refused, the board has the factory settings, two fresh ports and the profile asked for. Its
/// totals are zero either way.
#[derive(Clone, Copy, Debug, PartialEq, Eq)]
#[repr(C)]
#[must_use]
pub struct Started {
    /// 0, 19 or 20.
    pub number: u8,
    /// The board.
    pub board: Board,
}

/// What starting in place answers. Where it is refused, the settings are the factory's.
#[derive(Clone, Copy, Debug, PartialEq, Eq)]
#[repr(C)]
#[must_use]
pub struct StartedInPlace {
    /// The working values now.
    pub settings: Settings,
    /// 0, 17, 19 or 20.
    pub number: u8,
    /// Whether the board is read-only: the profile asked for, also where it is refused.
    pub readonly: bool,
}

/// What a feed answers, and a silence, which takes no byte. Where it is refused, the counts and the error are 0, and the held
/// count and the settings are the ones given.
#[derive(Clone, Copy, Debug, PartialEq, Eq)]
#[repr(C)]
#[must_use]
pub struct Stepped {
    /// Bytes taken from the chunk.
    pub taken: usize,
    /// Bytes that the scan skipped.
    pub skipped: usize,
    /// The bytes that the named port holds now.
    pub held: usize,
    /// The working values now.
    pub settings: Settings,
    /// 0, 1, or 16 to 20.
    pub number: u8,
    /// The first error in the reply, 0 to 7; 0 where there is no reply.
    pub error: u8,
    /// Whether a save was accepted or a fresh number was taken; the page has then been written.
    pub saved: bool,
}

/// What a writer answers.
#[derive(Clone, Copy, Debug, PartialEq, Eq)]
#[repr(C)]
#[must_use]
pub struct Written {
    /// 0, or why it is refused.
    pub number: u8,
    /// The bytes written; 0 where it is refused.
    pub length: usize,
}

/// What the reply reader answers of one row; zeros where it refuses.
#[derive(Clone, Copy, Debug, PartialEq, Eq)]
#[repr(C)]
#[must_use]
pub struct FlatReply {
    /// 0, 21 to 23, or 27.
    pub number: u8,
    /// The type.
    pub kind: u8,
    /// The echo.
    pub echo: u8,
    /// The error, 0 to 7.
    pub error: u8,
    /// Whether a value was reported.
    pub has_value: bool,
    /// The value; 0 where there is none.
    pub value: u32,
}

/// What the data reader answers; zeros where it refuses.
#[derive(Clone, Copy, Debug, PartialEq, Eq)]
#[repr(C)]
#[must_use]
pub struct FlatField {
    /// 0, 21 to 25, or 27.
    pub number: u8,
    /// The field's code.
    pub code: u8,
    /// Where the field's data start in the message.
    pub place: usize,
    /// How many data bytes it has, 0 to 253; 12 for 81 and 82.
    pub size: usize,
    /// The bits of X; 0 for an unknown field.
    pub x: u32,
    /// The bits of Y.
    pub y: u32,
    /// The bits of Z.
    pub z: u32,
}

/// The values of a page. A value that is not there is 0 in an answer, and is not looked at in an argument.
#[derive(Clone, Copy, Debug, Default, PartialEq, Eq)]
#[repr(C)]
pub struct FlatValues {
    /// Whether there is one under code 01.
    pub has_baud: bool,
    /// The value under code 01.
    pub baud: u32,
    /// Whether there is one under code 07.
    pub has_accelerometer: bool,
    /// The value under code 07.
    pub accelerometer: u32,
    /// Whether there is one under code 08.
    pub has_gyroscope: bool,
    /// The value under code 08.
    pub gyroscope: u32,
    /// Whether there is one under code 70.
    pub has_last_number: bool,
    /// The last number accepted, under code 70; any value.
    pub last_number: u32,
}

/// What reading a page answers. Where it is refused, no value is there.
#[derive(Clone, Copy, Debug, PartialEq, Eq)]
#[repr(C)]
#[must_use]
pub struct FlatPage {
    /// The values.
    pub values: FlatValues,
    /// 0, 19 or 20.
    pub number: u8,
}

extern "C" {
    fn ketphiroj_version() -> u32;
    fn ketphiroj_start(readonly: bool, page: *const u8, page_length: usize) -> Started;
    fn ketphiroj_start_in_place(
        readonly: bool,
        first: *mut u8,
        first_length: usize,
        second: *mut u8,
        second_length: usize,
        page: *const u8,
        page_length: usize,
    ) -> StartedInPlace;
    fn ketphiroj_call_in_place(
        port: u8,
        bytes: *mut u8,
        bytes_length: usize,
        first: usize,
        second: usize,
        settings: Settings,
        readonly: bool,
        quiet: bool,
        totals: *mut u64,
        totals_length: usize,
        chunk: *const u8,
        chunk_length: usize,
        room: *mut u8,
        room_length: usize,
        page: *mut u8,
        page_length: usize,
    ) -> Stepped;
    fn ketphiroj_count(
        tally: *mut Tally,
        number: u8,
        taken: usize,
        skipped: usize,
        error: u8,
        before: usize,
        after: usize,
    );
    fn ketphiroj_check_message(message: *const u8, message_length: usize) -> u8;
    fn ketphiroj_write_message(
        kind: u8,
        payload: *const u8,
        payload_length: usize,
        room: *mut u8,
        room_length: usize,
    ) -> Written;
    fn ketphiroj_write_command(code: u8, function: u8, value: u32, room: *mut u8, room_length: usize) -> Written;
    fn ketphiroj_write_numbered(
        number: u32,
        code: u8,
        function: u8,
        value: u32,
        room: *mut u8,
        room_length: usize,
    ) -> Written;
    fn ketphiroj_append_field(
        kind: u8,
        code: u8,
        function: u8,
        value: u32,
        length: usize,
        room: *mut u8,
        room_length: usize,
    ) -> Written;
    fn ketphiroj_read_reply(message: *const u8, message_length: usize, row: usize) -> FlatReply;
    fn ketphiroj_read_field(message: *const u8, message_length: usize, k: usize) -> FlatField;
    fn ketphiroj_copy_field(
        message: *const u8,
        message_length: usize,
        k: usize,
        room: *mut u8,
        room_length: usize,
    ) -> Written;
    fn ketphiroj_write_data(
        ax: u32,
        ay: u32,
        az: u32,
        rx: u32,
        ry: u32,
        rz: u32,
        room: *mut u8,
        room_length: usize,
    ) -> Written;
    fn ketphiroj_check_page(page: *const u8, page_length: usize) -> u8;
    fn ketphiroj_read_page(page: *const u8, page_length: usize) -> FlatPage;
    fn ketphiroj_write_page(values: FlatValues, page: *mut u8, page_length: usize) -> u8;
    fn ketphiroj_copy_body(
        saved: *const u8,
        saved_length: usize,
        factory: *const u8,
        factory_length: usize,
        code: u8,
        room: *mut u8,
        room_length: usize,
    ) -> Written;
    fn ketphiroj_factory_page(room: *mut u8, room_length: usize) -> Written;
}

/// The version of the archive: 10000 * major + 100 * minor + patch.
#[must_use]
pub fn version() -> u32 {
    // SAFETY: the call takes nothing and gives a number.
    unsafe { ketphiroj_version() }
}

/// Starts a board, read-only or in the full profile.
pub fn start(readonly: bool, page: &[u8]) -> Started {
    // SAFETY: `page` is valid for reads of its length during the call.
    unsafe { ketphiroj_start(readonly, page.as_ptr(), page.len()) }
}

/// Starts a board whose ports have these bytes, which are cleared: 17 where one of them is not 260 bytes, and nothing is
/// written; 19, 20, and they are cleared all the same. The held counts, the settings, the profile and totals of zero are the caller's
/// to put in.
pub fn start_in_place(readonly: bool, first: &mut [u8], second: &mut [u8], page: &[u8]) -> StartedInPlace {
    // SAFETY: `first` and `second` are valid for reads and writes of their lengths, `page` for reads of its own, and no
    // two of them overlap, as their borrows say.
    unsafe {
        ketphiroj_start_in_place(
            readonly,
            first.as_mut_ptr(),
            first.len(),
            second.as_mut_ptr(),
            second.len(),
            page.as_ptr(),
            page.len(),
        )
    }
}

/// A feed of a chunk, or where it is `quiet` a silence, argument by argument as C has it: 16 to 20, where 17 is also for `bytes` that
/// are not 260 and `totals` that are not [`TOTALS`]. Both are those of the named port; `first` and `second` are the held counts of
/// both. The held count and the settings answered are the caller's to put back.
#[inline]
#[allow(clippy::too_many_arguments)] // those of the C call, one to one
pub fn call_in_place(
    port: u8,
    bytes: &mut [u8],
    first: usize,
    second: usize,
    settings: Settings,
    readonly: bool,
    quiet: bool,
    totals: &mut [u64],
    chunk: &[u8],
    room: &mut [u8],
    page: &mut [u8],
) -> Stepped {
    // SAFETY: `chunk` is valid for reads of its length, `bytes`, `totals`, `room` and `page` for reads and writes of
    // theirs, and no two of them overlap, as their borrows say.
    unsafe {
        ketphiroj_call_in_place(
            port,
            bytes.as_mut_ptr(),
            bytes.len(),
            first,
            second,
            settings,
            readonly,
            quiet,
            totals.as_mut_ptr(),
            totals.len(),
            chunk.as_ptr(),
            chunk.len(),
            room.as_mut_ptr(),
            room.len(),
            page.as_mut_ptr(),
            page.len(),
        )
    }
}

/// The totals as the row of numbers that the library counts in.
#[inline]
pub fn totals_of(tally: &mut Tally) -> &mut [u64] {
    // SAFETY: the record is borrowed for as long as the row is, and is this many numbers, one behind the other and of
    // any value, as the text above and the assertions below say.
    unsafe { from_raw_parts_mut(from_mut(tally).cast(), TOTALS) }
}

/// A call for a port of a board. The board may be of any contents and stays where it is: only the named port's bytes and
/// totals are lent, and its held count and the settings are put back.
#[inline]
fn call_board(port: u8, board: &mut Board, quiet: bool, chunk: &[u8], room: &mut [u8], page: &mut [u8]) -> Stepped {
    let (first, second, settings, readonly) = (board.first.held, board.second.held, board.settings, board.readonly);
    let (named, tally) = match port {
        0 => (&mut board.first, &mut board.tally0),
        _ => (&mut board.second, &mut board.tally1),
    };
    let (bytes, totals) = (&mut named.bytes, totals_of(tally));
    let stepped = call_in_place(port, bytes, first, second, settings, readonly, quiet, totals, chunk, room, page);
    named.held = stepped.held;
    board.settings = stepped.settings;
    stepped
}

/// Feeds a chunk to a port of a board: 16 to 20.
#[inline]
pub fn feed_in_place(port: u8, board: &mut Board, chunk: &[u8], room: &mut [u8], page: &mut [u8]) -> Stepped {
    call_board(port, board, false, chunk, room, page)
}

/// Tells a port of a board that its line is silent: 16 to 20.
#[inline]
pub fn silence_in_place(port: u8, board: &mut Board, room: &mut [u8], page: &mut [u8]) -> Stepped {
    call_board(port, board, true, &[], room, page)
}

/// Counts a call in a driver's own record: what it answered, and what its port held before it and after it. Any arguments are
/// taken.
pub fn count(tally: &mut Tally, number: u8, taken: usize, skipped: usize, error: u8, before: usize, after: usize) {
    // SAFETY: `tally` is valid for reads and writes during the call.
    unsafe { ketphiroj_count(tally, number, taken, skipped, error, before, after) }
}

/// 0 for one whole message with right sums, else 21 or 22.
#[must_use]
pub fn check_message(message: &[u8]) -> u8 {
    // SAFETY: `message` is valid for reads of its length during the call.
    unsafe { ketphiroj_check_message(message.as_ptr(), message.len()) }
}

/// Writes the message of a type and a payload: 26, 18.
pub fn write_message(kind: u8, payload: &[u8], room: &mut [u8]) -> Written {
    // SAFETY: `payload` is valid for reads of its length and `room` for reads and writes of its own; they do not
    // overlap.
    unsafe { ketphiroj_write_message(kind, payload.as_ptr(), payload.len(), room.as_mut_ptr(), room.len()) }
}

/// Writes a command: 28, 18.
pub fn write_command(code: u8, function: u8, value: u32, room: &mut [u8]) -> Written {
    // SAFETY: `room` is valid for reads and writes of its length during the call.
    unsafe { ketphiroj_write_command(code, function, value, room.as_mut_ptr(), room.len()) }
}

/// Writes a numbered command: 28, 18.
pub fn write_numbered(number: u32, code: u8, function: u8, value: u32, room: &mut [u8]) -> Written {
    // SAFETY: `room` is valid for reads and writes of its length during the call.
    unsafe { ketphiroj_write_numbered(number, code, function, value, room.as_mut_ptr(), room.len()) }
}

/// Writes one field of a command of a type behind the first `length` bytes of the room: 28, 18. The length answered is
/// the payload's new one.
pub fn append_field(kind: u8, code: u8, function: u8, value: u32, length: usize, room: &mut [u8]) -> Written {
    // SAFETY: `room` is valid for reads and writes of its length during the call. `length` is a number, which the
    // library compares with the room's.
    unsafe { ketphiroj_append_field(kind, code, function, value, length, room.as_mut_ptr(), room.len()) }
}

/// Reads row `row` of a reply: 21 to 23, 27.
pub fn read_reply(message: &[u8], row: usize) -> FlatReply {
    // SAFETY: `message` is valid for reads of its length during the call.
    unsafe { ketphiroj_read_reply(message.as_ptr(), message.len(), row) }
}

/// Reads field `k` of a data message: 21 to 25, 27.
pub fn read_field(message: &[u8], k: usize) -> FlatField {
    // SAFETY: `message` is valid for reads of its length during the call.
    unsafe { ketphiroj_read_field(message.as_ptr(), message.len(), k) }
}

/// Copies the data bytes of field `k` of a data message: 21 to 25, 27, then 18.
pub fn copy_field(message: &[u8], k: usize, room: &mut [u8]) -> Written {
    // SAFETY: `message` is valid for reads of its length and `room` for reads and writes of its own; they do not
    // overlap.
    unsafe { ketphiroj_copy_field(message.as_ptr(), message.len(), k, room.as_mut_ptr(), room.len()) }
}

/// Writes a data message of axes given as bits: 18.
pub fn write_data(acceleration: [u32; 3], rate: [u32; 3], room: &mut [u8]) -> Written {
    let [ax, ay, az] = acceleration;
    let [rx, ry, rz] = rate;
    // SAFETY: `room` is valid for reads and writes of its length during the call.
    unsafe { ketphiroj_write_data(ax, ay, az, rx, ry, rz, room.as_mut_ptr(), room.len()) }
}

/// 0 for a blank or sound page, else 19 or 20.
#[must_use]
pub fn check_page(page: &[u8]) -> u8 {
    // SAFETY: `page` is valid for reads of its length during the call.
    unsafe { ketphiroj_check_page(page.as_ptr(), page.len()) }
}

/// The values that a blank or sound page keeps: 19, 20.
pub fn read_page(page: &[u8]) -> FlatPage {
    // SAFETY: `page` is valid for reads of its length during the call.
    unsafe { ketphiroj_read_page(page.as_ptr(), page.len()) }
}

/// Writes the page anew: 19, 20.
#[must_use]
pub fn write_page(values: FlatValues, page: &mut [u8]) -> u8 {
    // SAFETY: `page` is valid for reads and writes of its length during the call. The values go by value.
    unsafe { ketphiroj_write_page(values, page.as_mut_ptr(), page.len()) }
}

/// Copies the body under a code, of the saved page or else of the factory page: 19, 20 of the saved page, then 19, 20 of
/// the factory page, then 18.
pub fn copy_body(saved: &[u8], factory: &[u8], code: u8, room: &mut [u8]) -> Written {
    // SAFETY: `saved` and `factory` are valid for reads of their lengths, `room` for reads and writes of its own, and
    // `room` overlaps neither.
    unsafe {
        ketphiroj_copy_body(
            saved.as_ptr(),
            saved.len(),
            factory.as_ptr(),
            factory.len(),
            code,
            room.as_mut_ptr(),
            room.len(),
        )
    }
}

/// Writes the factory page: 18.
pub fn factory_page(room: &mut [u8]) -> Written {
    // SAFETY: `room` is valid for reads and writes of its length during the call.
    unsafe { ketphiroj_factory_page(room.as_mut_ptr(), room.len()) }
}

/// The layouts that the library's records have on x86-64.
const _: () = {
    use core::mem::{align_of, offset_of, size_of};
    assert!(size_of::<Port>() == 272 && offset_of!(Port, held) == 264);
    assert!(size_of::<Settings>() == 8 && offset_of!(Settings, gyroscope) == 5);
    assert!(size_of::<Tally>() == TOTALS * size_of::<u64>() && align_of::<Tally>() == align_of::<u64>());
    assert!(offset_of!(Tally, taken) == 0 && offset_of!(Tally, skipped) == 8);
    assert!(offset_of!(Tally, good) == 16 && offset_of!(Tally, errors) == 24);
    assert!(size_of::<Board>() == 736 && offset_of!(Board, settings) == 544 && offset_of!(Board, readonly) == 552);
    assert!(offset_of!(Board, tally0) == 560 && offset_of!(Board, tally1) == 648);
    assert!(size_of::<Started>() == 744 && offset_of!(Started, board) == 8);
    assert!(size_of::<StartedInPlace>() == 12 && offset_of!(StartedInPlace, settings) == 0);
    assert!(offset_of!(StartedInPlace, number) == 8 && offset_of!(StartedInPlace, readonly) == 9);
    assert!(size_of::<Stepped>() == 40 && offset_of!(Stepped, number) == 32);
    assert!(offset_of!(Stepped, error) == 33 && offset_of!(Stepped, saved) == 34);
    assert!(size_of::<Written>() == 16 && offset_of!(Written, length) == 8);
    assert!(size_of::<FlatReply>() == 12 && offset_of!(FlatReply, value) == 8);
    assert!(size_of::<FlatField>() == 40 && offset_of!(FlatField, place) == 8);
    assert!(offset_of!(FlatField, size) == 16 && offset_of!(FlatField, x) == 24);
    assert!(size_of::<FlatValues>() == 32 && offset_of!(FlatValues, gyroscope) == 20);
    assert!(offset_of!(FlatValues, has_last_number) == 24 && offset_of!(FlatValues, last_number) == 28);
    assert!(size_of::<FlatPage>() == 36 && offset_of!(FlatPage, values) == 0 && offset_of!(FlatPage, number) == 32);
};
