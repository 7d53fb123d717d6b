//! Single feeds of a few kinds, to see what a feed costs beside the scan.

use ketphiroj::{Board, Profile, Tally, Values};
use std::time::Instant;

/// One feed that leaves the board as it was, so that it can be repeated.
pub struct Case {
    pub name: &'static str,
    port: u8,
    chunk: Vec<u8>,
    page: [u8; 64],
    first: Option<u8>,
    /// How many bytes of a message of 261 the port holds before each feed, where the feed leaves it undecided.
    holds: Option<usize>,
    /// Whether the page is put back behind each feed, so that a number is fresh in each.
    put_back: bool,
    /// Whether the feed is counted in a record of the driver's own, too.
    own: bool,
}

fn page_with(last_number: Option<u32>) -> [u8; 64] {
    let mut page = [0; 64];
    let values = Values { baud: Some(9600), accelerometer: Some(1), gyroscope: Some(1), last_number };
    values.write(&mut page).expect("values that a page may keep");
    page
}

fn full_page() -> [u8; 64] {
    page_with(None)
}

fn numbered_page() -> [u8; 64] {
    page_with(Some(9))
}

/// A numbered save of a range.
fn numbered_save(number: u8) -> Vec<u8> {
    plain::message(0x7C, &[0, 0, 0, number, 0x02, 0x07, 1, 3])
}

/// The settings that the full page keeps, so that the board stays as it is.
fn three_settings() -> Vec<u8> {
    plain::message(0x02, &[0x01, 5, 1, 0, 0, 0x25, 0x80, 0x07, 2, 1, 1, 0x08, 2, 1, 1])
}

/// The cases, the cheapest first.
pub fn cases() -> Vec<Case> {
    let ping = plain::message(0x01, &[0x02, 0]);
    let case = |name, port, chunk: &[u8], page| Case { name, port, page, ..Case::on_blank_page(chunk) };
    let blank = [0xFF; 64];
    let mut cases = vec![
        case("refused: port 2", 2, &[], blank),
        case("nothing fed, blank page", 0, &[], blank),
        case("nothing fed, page of three entries", 0, &[], full_page()),
        case("Ping, blank page", 0, &ping, blank),
        Case { own: true, ..case("Ping, blank page, counted by its driver", 0, &ping, blank) },
        case("Ping, page of three entries", 0, &ping, full_page()),
        Case { first: Some(0xA5), ..case("Ping that straddles two feeds, both", 0, &ping[1..], blank) },
        case("report of a range, page of three entries", 0, &plain::message(0x02, &[0x07, 1, 2]), full_page()),
        case("save of a range, page of three entries", 0, &plain::message(0x02, &[0x07, 1, 3]), full_page()),
        case("3 settings at once, page of three entries", 0, &three_settings(), full_page()),
        case(
            "16 reports at once, page of three entries",
            0,
            &plain::message(0x02, &[0x01, 1, 2].repeat(16)),
            full_page(),
        ),
        case("Ping, page of four entries", 0, &ping, numbered_page()),
        case("no number: refused, page of four entries", 0, &plain::message(0x02, &[0x07, 1, 3]), numbered_page()),
        case("stale: refused, page of four entries", 0, &numbered_save(9), numbered_page()),
        Case { put_back: true, ..case("numbered save, page of four entries", 0, &numbered_save(10), numbered_page()) },
        case("34 bytes, blank page", 0, &plain::message(0xA2, &[0x11; 28]), blank),
        case("261 bytes, blank page", 0, &plain::message(0xA2, &[0x11; 255]), blank),
    ];
    cases.extend(one_byte());
    cases
}

/// One byte to what a port holds of a message of 261, which does not complete it.
pub fn one_byte() -> [Case; 6] {
    let case = |name, held, page| {
        let chunk = &longest()[held..=held];
        Case { name, page, holds: Some(held), ..Case::on_blank_page(chunk) }
    };
    [
        case("one byte, nothing held, blank page", 0, [0xFF; 64]),
        case("one byte, 130 held, blank page", 130, [0xFF; 64]),
        case("one byte, 259 held, blank page", 259, [0xFF; 64]),
        case("one byte, nothing held, page of three entries", 0, full_page()),
        case("one byte, 130 held, page of three entries", 130, full_page()),
        case("one byte, 259 held, page of three entries", 259, full_page()),
    ]
}

fn longest() -> Vec<u8> {
    plain::message(0x02, &[0x11; 255])
}

/// Few, so that one of the runs is not disturbed.
const FEEDS: u32 = 2000;

impl Case {
    /// A chunk that is fed to port 0, which holds nothing.
    pub fn on_blank_page(chunk: &[u8]) -> Case {
        let chunk = chunk.to_vec();
        Case { name: "", port: 0, chunk, page: [0xFF; 64], first: None, holds: None, put_back: false, own: false }
    }

    /// A board on the case's page, whose port 0 holds what the case says.
    fn board(&self) -> Board {
        let mut board = Board::start(Profile::Full, &self.page).expect("a sound page");
        board.first.held = self.holds.unwrap_or(0);
        board.first.bytes[..board.first.held].copy_from_slice(&longest()[..board.first.held]);
        board
    }

    fn feed(&self, board: &mut Board, own: &mut Tally, page: &mut [u8; 64]) {
        let mut room = [0; Board::REPLY];
        if let Some(byte) = self.first {
            let _ = board.feed(self.port, &[byte], &mut room, page);
        }
        let before = board.first.held;
        // A refusal is one of the cases.
        let answer = std::hint::black_box(board.feed(self.port, std::hint::black_box(&self.chunk), &mut room, page));
        if self.own {
            own.count(&answer, before, board.first.held);
        }
        if self.put_back {
            *page = self.page;
        }
        if let Some(held) = self.holds {
            // The bytes are still there; the one behind them is written again by the next feed.
            assert_eq!(std::mem::replace(&mut board.first.held, held), held + 1, "{}: it was decided", self.name);
        }
    }

    /// So many feeds, one behind the other: the nanoseconds of one.
    pub fn feed_often(&self, feeds: u32) -> f64 {
        let (mut page, mut board, mut own) = (self.page, self.board(), Tally::new());
        let begin = Instant::now();
        for _ in 0..feeds {
            self.feed(&mut board, &mut own, &mut page);
        }
        let time = begin.elapsed().as_secs_f64() * 1e9 / f64::from(feeds);
        assert!(!self.own || own == board.tally0, "{}: not the board's totals", self.name);
        time
    }

    /// The nanoseconds of one feed, in the smallest of some runs.
    pub fn nanoseconds(&self, runs: u32) -> f64 {
        (0..runs).map(|_| self.feed_often(FEEDS)).fold(f64::MAX, f64::min)
    }
}
