//! How much of the library's own stack a feed and a silence take, and a start by value. painted/mod.rs says what that is, and
//! how it is measured.
//!
//! `cargo test --release --offline -p bench --test stack -- --nocapture` prints the figures: the table is printed before
//! anything is compared with a limit.

#![deny(unsafe_code)]

mod painted;

use ketphiroj::{read_rows, Board, Outcome, Port, Profile, ReplyError, PAGE};
use painted::{own_stack, pages, print_heading, print_row};
use raw::{PortCall, Start};

/// The most that a feed or a silence may take of the library's own stack, in bytes. Before request 04, which asks for not more than
/// before, none took less than 328. One that is not refused takes 216 or more, so that with an array of 64 bytes or more, in whichever function, it is over the limit.
const MOST_OF_A_CALL: usize = 256;

/// The most that a start by value may take. It answers a whole board in the caller's memory, and has the array of one
/// port, 260 bytes, beside it; with that of a second port it is over the limit.
const MOST_OF_A_START: usize = 512;

/// The port that is fed or silent: in the full profile, in which these boards are started, port 1 takes commands without
/// a number on every page.
const PORT: u8 = 1;

/// What a feed is given, or a silence, whose chunk is empty.
#[derive(Clone)]
pub struct Given {
    board: Board,
    quiet: bool,
    chunk: Vec<u8>,
    room: [u8; Board::REPLY],
    page: [u8; PAGE],
}

/// The unsafe part: the calls as C has them. The wrapper's functions do not serve here: they are inlined, or have
/// frames of their own, which differ from one build to the next, and then it is not known where the stack pointer
/// stands when the library is called.
#[allow(unsafe_code)]
mod raw {
    use super::painted::Call;
    use super::{Given, PORT};
    use ketphiroj::ffi::{totals_of, Started, Stepped};
    use ketphiroj::{Settings, PAGE};
    use std::arch::naked_asm;
    use std::mem::MaybeUninit;

    // What a function answers is not looked at, and the functions that do nothing do not write it.
    type PortFunction = unsafe extern "C" fn(
        u8,
        *mut u8,
        usize,
        usize,
        usize,
        Settings,
        bool,
        bool,
        *mut u64,
        usize,
        *const u8,
        usize,
        *mut u8,
        usize,
        *mut u8,
        usize,
    ) -> MaybeUninit<Stepped>;
    type StartFunction = unsafe extern "C" fn(bool, *const u8, usize) -> MaybeUninit<Started>;

    extern "C" {
        fn ketphiroj_call_in_place(
            port: u8,
            bytes: *mut u8,
            bytes_length: usize,
            first: usize,
            second: usize,
            settings: Settings,
            readonly: bool,
            quiet: bool,
            totals: *mut u64,
            totals_length: usize,
            chunk: *const u8,
            chunk_length: usize,
            room: *mut u8,
            room_length: usize,
            page: *mut u8,
            page_length: usize,
        ) -> MaybeUninit<Stepped>;
        fn ketphiroj_start(readonly: bool, page: *const u8, page_length: usize) -> MaybeUninit<Started>;
    }

    /// A record as long as these is answered in the caller's memory, whose address is handed back.
    #[unsafe(naked)]
    unsafe extern "C" fn call_nothing(
        _: u8,
        _: *mut u8,
        _: usize,
        _: usize,
        _: usize,
        _: Settings,
        _: bool,
        _: bool,
        _: *mut u64,
        _: usize,
        _: *const u8,
        _: usize,
        _: *mut u8,
        _: usize,
        _: *mut u8,
        _: usize,
    ) -> MaybeUninit<Stepped> {
        naked_asm!("mov rax, rdi", "ret")
    }

    #[unsafe(naked)]
    unsafe extern "C" fn start_nothing(_: bool, _: *const u8, _: usize) -> MaybeUninit<Started> {
        naked_asm!("mov rax, rdi", "ret")
    }

    /// A feed of a chunk to the second port of a board, or a silence of it.
    pub struct PortCall {
        bytes: (*mut u8, usize),
        held: [usize; 2],
        settings: Settings,
        readonly: bool,
        quiet: bool,
        totals: (*mut u64, usize),
        chunk: (*const u8, usize),
        room: (*mut u8, usize),
        page: (*mut u8, usize),
    }

    impl PortCall {
        pub const LIBRARY: PortFunction = ketphiroj_call_in_place;
    }

    impl Call for PortCall {
        type Given = Given;
        type Function = PortFunction;
        const NOTHING: PortFunction = call_nothing;

        fn lend(given: &mut Given) -> PortCall {
            let board = &mut given.board;
            let totals = totals_of(&mut board.tally1);
            PortCall {
                totals: (totals.as_mut_ptr(), totals.len()),
                bytes: (board.second.bytes.as_mut_ptr(), board.second.bytes.len()),
                held: [board.first.held, board.second.held],
                settings: board.settings,
                readonly: board.readonly,
                quiet: given.quiet,
                chunk: (given.chunk.as_ptr(), given.chunk.len()),
                room: (given.room.as_mut_ptr(), given.room.len()),
                page: (given.page.as_mut_ptr(), given.page.len()),
            }
        }

        #[inline(never)]
        fn make(&self, function: PortFunction) {
            let PortCall { bytes, held: [first, second], settings, readonly, quiet, totals, chunk, room, page } = *self;
            // SAFETY: the pointers are those of `given`, which outlives this, with their lengths, and do not overlap.
            unsafe {
                function(
                    PORT, bytes.0, bytes.1, first, second, settings, readonly, quiet, totals.0, totals.1, chunk.0,
                    chunk.1, room.0, room.1, page.0, page.1,
                )
            };
        }
    }

    /// A start by value.
    pub struct Start {
        page: (*const u8, usize),
    }

    impl Start {
        pub const LIBRARY: StartFunction = ketphiroj_start;
    }

    impl Call for Start {
        type Given = [u8; PAGE];
        type Function = StartFunction;
        const NOTHING: StartFunction = start_nothing;

        fn lend(page: &mut [u8; PAGE]) -> Start {
            Start { page: (page.as_ptr(), page.len()) }
        }

        #[inline(never)]
        fn make(&self, function: StartFunction) {
            // SAFETY: the pointer is that of the page given, which outlives this, with its length.
            unsafe { function(false, self.page.0, self.page.1) };
        }
    }
}

/// How many rows are answered, their error, and how many entries a page that was blank has then. None where the chunk is
/// used up.
type Answer = Option<(usize, u8, u8)>;

/// What a port holds, what is fed to it, or that it is silent, and what is answered.
struct Case {
    name: &'static str,
    held: Vec<u8>,
    quiet: bool,
    chunk: Vec<u8>,
    answer: Answer,
}

impl Case {
    /// A message of which the port holds the first bytes.
    fn straddling(name: &'static str, message: &[u8], held: usize, answer: Answer) -> Case {
        let (held, chunk) = message.split_at(held);
        Case { name, held: held.to_vec(), quiet: false, chunk: chunk.to_vec(), answer }
    }

    /// A silence of a port that holds 260 bytes: headers that claim more than what follows, and then this.
    fn silent(name: &'static str, end: &[u8], answer: Answer) -> Case {
        let mut held = [0xA5, 0xA5, 0x01, 0xFF].repeat(65);
        let begin = held.len() - end.len();
        held[begin..].copy_from_slice(end);
        Case { name, held, quiet: true, chunk: Vec::new(), answer }
    }

    fn given(&self, page: [u8; PAGE]) -> Given {
        let mut second = Port::new();
        second.bytes[..self.held.len()].copy_from_slice(&self.held);
        second.held = self.held.len();
        let board = Board { second, ..Board::start(Profile::Full, &page).expect("a blank or sound page") };
        Given { board, quiet: self.quiet, chunk: self.chunk.clone(), room: [0; Board::REPLY], page }
    }

    /// A case that does something else than its name says would measure nothing.
    fn check(&self, mut given: Given) {
        let blank = given.page[0] == 0xFF;
        let Given { board, chunk, room, page, .. } = &mut given;
        let outcome = match self.quiet {
            true => board.silence(PORT, room, page),
            false => board.feed(PORT, chunk, room, page),
        };
        match (outcome.expect("a sound board and page"), self.answer) {
            (Outcome::UsedUp { .. }, None) => {}
            (Outcome::Reported { reply, saved, .. }, Some((rows, error, entries))) => {
                let rows_read = read_rows(&given.room[..reply]).expect("a reply");
                let errors: Vec<u8> = rows_read.map(|row| row.error.map_or(0, ReplyError::number)).collect();
                assert_eq!((errors, saved), (vec![error; rows], entries > 0), "{}", self.name);
                let first = if entries == 0 { 0xFF } else { entries };
                assert!(!blank || given.page[0] == first, "{}: {:02X?}", self.name, given.page);
            }
            (outcome, answer) => panic!("{}: {outcome:?} and not {answer:?}", self.name),
        }
    }

    fn own_stack(&self, page: [u8; PAGE]) -> usize {
        self.check(self.given(page));
        own_stack::<PortCall>(&self.given(page), PortCall::LIBRARY)
    }
}

/// Sixteen fields with this function, of each setting in turn.
fn sixteen(function: u8) -> Vec<u8> {
    [0x01, 0x07, 0x08].into_iter().cycle().take(16).flat_map(|code| [code, 1, function]).collect()
}

/// A numbered command of type 02. The page of four entries keeps the number 1.
fn numbered(fields: &[u8]) -> Vec<u8> {
    plain::message(0x7C, &[&[0, 0, 0, 2, 0x02], fields].concat())
}

fn cases() -> Vec<Case> {
    let (longest, shorter) = (plain::message(0x02, &[0x11; 255]), plain::message(0x02, &[0x11; 254]));
    let mut damaged = longest.clone();
    damaged[260] ^= 1;
    let case = |name, message: &[u8], answer| Case::straddling(name, message, 0, answer);
    let all_saved = numbered(&sixteen(3));
    vec![
        case("nothing fed", &[], None),
        case("261 bytes whole in the chunk", &longest, Some((1, 4, 0))),
        Case::straddling("261 bytes, 1 of them held", &longest, 1, Some((1, 4, 0))),
        Case::straddling("261 bytes, 130 of them held", &longest, 130, Some((1, 4, 0))),
        Case::straddling("261 bytes, 260 of them held", &longest, 260, Some((1, 4, 0))),
        Case::straddling("260 bytes, all of them held", &shorter, 260, Some((1, 4, 0))),
        case("261 bytes, damaged", &damaged, Some((1, 1, 0))),
        Case::straddling("1 byte to 259 held, and not yet whole", &longest[..260], 259, None),
        case("16 reports", &plain::message(0x02, &sixteen(2)), Some((16, 0, 0))),
        case("16 saves", &plain::message(0x02, &sixteen(3)), Some((16, 0, 3))),
        case("a save", &plain::message(0x02, &[0x01, 1, 3]), Some((1, 0, 1))),
        case("a load", &plain::message(0x02, &[0x01, 1, 4]), Some((1, 0, 0))),
        case("a numbered save", &numbered(&[0x01, 1, 3]), Some((1, 0, 2))),
        case("16 numbered saves", &all_saved, Some((16, 0, 4))),
        Case::straddling("16 numbered saves, 30 bytes of them held", &all_saved, 30, Some((16, 0, 4))),
    ]
}

fn silences() -> Vec<Case> {
    let longest = plain::message(0x02, &[0x11; 255]);
    vec![
        Case { held: Vec::new(), ..Case::silent("silence, nothing held", &[], None) },
        Case::silent("silence, 260 bytes of headers", &[], None),
        Case::silent("silence, 260 bytes held of 261", &longest[..260], None),
        Case::silent("silence, 260 bytes, all of them held", &plain::message(0x02, &[0x11; 254]), Some((1, 4, 0))),
        Case::silent("silence, 256 bytes behind a header", &plain::message(0x02, &[0x11; 250]), Some((1, 4, 0))),
        Case::silent("silence, 16 saves behind headers", &plain::message(0x02, &sixteen(3)), Some((16, 0, 3))),
        Case::silent("silence, 16 numbered saves behind headers", &numbered(&sixteen(3)), Some((16, 0, 4))),
    ]
}

#[test]
fn own_stack_of_calls() {
    print_heading();
    let cases = cases().into_iter().chain(silences());
    let calls: Vec<(&str, [usize; 3])> =
        cases.map(|case| (case.name, pages().map(|page| case.own_stack(page)))).collect();
    calls.iter().for_each(|&(name, bytes)| print_row(name, bytes));
    let start = pages().map(|page| own_stack::<Start>(&page, Start::LIBRARY));
    print_row("start by value", start);
    for (name, bytes) in calls {
        assert!(bytes.iter().all(|&bytes| bytes <= MOST_OF_A_CALL), "{name}: over {MOST_OF_A_CALL}: {bytes:?}");
    }
    assert!(start.iter().all(|&bytes| bytes <= MOST_OF_A_START), "start by value: over {MOST_OF_A_START}: {start:?}");
}
