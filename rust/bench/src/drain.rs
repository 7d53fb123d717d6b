//! A silent line: how long it takes to read what a port holds to its end, beside feeds of as many bytes.
//!
//! Measured are the three cases below. That no other 260 bytes take longer is not measured; the cases were chosen by this
//! reasoning. A header that claims more than what follows is undecided: it costs the test of its opening and no sums, and the
//! next one can stand four bytes behind it, or three where its length byte is the first A5 of the next and so claims 171 bytes.
//! In one silence at most one message is summed and answered, since the silence stops there; so the most expensive one should
//! be of such headers, as close as they can stand, and then a message that costs much to answer. In a whole drain each header
//! whose message is all held is summed and answered, one in each silence, and only one byte of it is skipped; so the most
//! expensive drain should be of headers as close as they can stand, each of which claims as much as is held. A good message
//! should cost less for its length: all of its bytes are read with it.

use ketphiroj::{Board, Outcome, Port, Profile, Values, PAGE};
use std::hint::black_box;
use std::time::Instant;

const HELD: usize = Port::ROOM;

/// A header that claims 255 bytes: all that is held waits behind it.
const FALSE_HEADER: [u8; 4] = [0xA5, 0xA5, 0x01, 0xFF];

/// What a port holds, and what is fed instead: the same bytes, without the headers that the scan would wait behind.
pub struct Case {
    pub name: &'static str,
    held: [u8; HELD],
    fed: [u8; HELD],
}

/// What was timed: the nanoseconds, and how many calls and reported messages there were.
#[derive(Clone, Copy, Debug, PartialEq)]
pub struct Timed {
    pub nanoseconds: f64,
    pub calls: u32,
    pub messages: u32,
}

/// Headers from the front up to a place: four bytes each, and three where 171 bytes are more than what follows.
fn headers_past_the_end(held: &mut [u8; HELD], end: usize) {
    let mut place = 0;
    while place + 4 <= end {
        held[place..place + 4].copy_from_slice(&FALSE_HEADER);
        place += if HELD - place >= 165 + 6 { 4 } else { 3 };
    }
}

/// Headers that claim as much as is held, behind one that claims more: 171 bytes every three bytes, then all that is left
/// every four.
fn headers_of_what_is_held() -> [u8; HELD] {
    let mut held = [0; HELD];
    held[..4].copy_from_slice(&FALSE_HEADER);
    let mut place = 4;
    while HELD - place >= 6 {
        let left = HELD - place;
        held[place..place + 4].copy_from_slice(&[0xA5, 0xA5, 0x01, (left - 6) as u8]);
        place += if left - 3 >= 165 + 6 { 3 } else { 4 };
    }
    held
}

/// Sixteen saves with a number, on a page of four entries. No command has more fields, and no page more entries.
fn sixteen_saves() -> Vec<u8> {
    let saves = [[0x01, 1, 3], [0x07, 1, 3], [0x08, 1, 3]].into_iter().cycle().take(16).flatten();
    plain::message(0x7C, &[0, 0, 0, 2, 0x02].into_iter().chain(saves).collect::<Vec<u8>>())
}

/// The page that the cases are run on, which keeps the number 1.
fn page() -> [u8; PAGE] {
    let mut page = [0; PAGE];
    let values = Values { baud: Some(9600), accelerometer: Some(1), gyroscope: Some(1), last_number: Some(1) };
    values.write(&mut page).expect("values that a page may keep");
    page
}

/// The bytes with no header before this place: the second A5 of each becomes 00.
fn without_headers(held: &[u8; HELD], end: usize) -> [u8; HELD] {
    let mut fed = *held;
    for place in 1..end {
        if fed[place - 1..=place] == [0xA5, 0xA5] {
            fed[place] = 0;
        }
    }
    fed
}

pub fn cases() -> [Case; 3] {
    let mut undecided = [0; HELD];
    headers_past_the_end(&mut undecided, HELD);
    let saves = sixteen_saves();
    let begin = HELD - saves.len();
    let mut before_saves = undecided;
    before_saves[begin..].copy_from_slice(&saves);
    let damaged = headers_of_what_is_held();
    [
        Case { name: "headers that claim more", held: undecided, fed: without_headers(&undecided, HELD) },
        Case { name: "the same before 16 saves", held: before_saves, fed: without_headers(&before_saves, begin) },
        Case { name: "headers of what is held", held: damaged, fed: without_headers(&damaged, 4) },
    ]
}

/// Few, so that one of the runs is not disturbed.
const REPEATS: u32 = 200;

impl Case {
    /// A board whose port 0 holds these bytes.
    fn holding(bytes: &[u8]) -> Board {
        let mut board = Board::start(Profile::Full, &page()).expect("a sound page");
        board.first.bytes[..bytes.len()].copy_from_slice(bytes);
        board.first.held = bytes.len();
        board
    }

    /// Calls until nothing more is reported; the time is that of one whole run of them.
    fn time(&self, held: &[u8], mut call: impl FnMut(&mut Board, &mut [u8], &mut [u8; PAGE]) -> Outcome) -> Timed {
        let (given, sound_page) = (Case::holding(held), page());
        let (mut calls, mut messages) = (0, 0);
        let begin = Instant::now();
        for _ in 0..REPEATS {
            let (mut board, mut page) = (given, sound_page);
            let mut room = [0; Board::REPLY];
            loop {
                calls += 1;
                match black_box(call(&mut board, &mut room, &mut page)) {
                    Outcome::Reported { .. } => messages += 1,
                    Outcome::UsedUp { .. } => break,
                }
            }
        }
        let nanoseconds = begin.elapsed().as_secs_f64() * 1e9 / f64::from(REPEATS);
        Timed { nanoseconds, calls: calls / REPEATS, messages: messages / REPEATS }
    }

    fn drain(&self) -> Timed {
        self.time(&self.held, |board, room, page| board.silence(0, room, page).expect("a sound board and page"))
    }

    fn feeds(&self) -> Timed {
        let mut rest = &self.fed[..];
        self.time(&[], |board, room, page| {
            let outcome = board.feed(0, black_box(rest), room, page).expect("a sound board and page");
            rest = match outcome {
                Outcome::Reported { taken, .. } => &rest[taken..],
                Outcome::UsedUp { .. } => &self.fed,
            };
            outcome
        })
    }

    /// A whole drain, and feeds of as many bytes, in turns: the smallest time of each. Both report as many messages.
    pub fn measure(&self, runs: u32) -> (Timed, Timed) {
        let mut smallest = (self.drain(), self.feeds());
        assert_eq!(smallest.0.messages, smallest.1.messages, "{}: not the same messages", self.name);
        for _ in 1..runs {
            let (drain, feeds) = (self.drain(), self.feeds());
            smallest.0.nanoseconds = smallest.0.nanoseconds.min(drain.nanoseconds);
            smallest.1.nanoseconds = smallest.1.nanoseconds.min(feeds.nanoseconds);
        }
        smallest
    }
}

/// The cases are what their names and the comment above say, by the plain reading.
#[test]
fn cases_are_as_told() {
    use plain::Event;
    let events = cases().map(|case| {
        let events = plain::scan_marked(&case.held, &[HELD]);
        // What a feed would wait behind: all of it.
        assert_eq!(plain::scan(&case.held), []);
        (
            events.iter().filter(|event| matches!(event, Event::Good { .. })).count(),
            events.iter().filter(|event| matches!(event, Event::Damaged { .. })).count(),
        )
    });
    assert_eq!(events, [(0, 0), (1, 0), (0, 70)]);
}
