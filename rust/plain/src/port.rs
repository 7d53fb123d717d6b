//! Ports, the board, starting, feeding and silences (01-013 to 01-025, 01-056, 01-084 to 01-088; 02-01.3, 02-02.5, 02-03.6,
//! 02-05.3, 02-05.4, 02-06.1 to 02-06.3, 02-06.6, 02-06.8, 02-12.2, 02-12.5, 02-13.2).

use crate::handling::{handle, usable, Profile, Settings, ACCELEROMETER, BAUD, FACTORY, GYROSCOPE};
use crate::message::{length_of, number_of, sums_right};
use crate::number;
use crate::page::{body_of, check_page, factory_page, values, write_page};
use crate::tally::{Done, Tally};

/// 01-019: "A port holds at most 260 bytes of an undecided message or of bytes not yet looked at."
#[derive(Clone, Copy, Debug, PartialEq, Eq)]
pub struct Port {
    pub bytes: [u8; 260],
    pub held: usize,
}

/// 01-020: "A fresh port holds nothing, and the limits belong to its kind of record."
impl Port {
    /// The most that a port holds.
    pub const MOST_HELD: usize = 260;
    /// The longest message.
    pub const LONGEST_MESSAGE: usize = 261;
    /// The longest reply, and the least room of a feed. 02-02.5: "The feed's room grows to 166"; a row of a reply has
    /// at most 10 bytes, and there are at most 16.
    pub const LONGEST_REPLY: usize = 166;

    pub fn fresh() -> Port {
        Port { bytes: [0; 260], held: 0 }
    }
}

#[derive(Clone, Copy, Debug, PartialEq, Eq)]
pub struct Board {
    pub ports: [Port; 2],
    pub settings: Settings,
    /// 02-12.2: "A board started in this profile".
    pub profile: Profile,
    /// 02-13.2: "The board record gains, for each port, 64-bit totals since start".
    pub tallies: [Tally; 2],
}

/// Starting: the number and the board.
///
/// 01-084: "Starting tests 19, 20". 01-087: a refusal returns "the factory settings and two fresh ports". 02-12.5: "A refused
/// start keeps the profile asked for." 02-13.2: the totals are those "since start", so that none is left of what was before,
/// whether it is refused or not.
pub fn start(profile: Profile, page: &[u8]) -> (u8, Board) {
    let ports = [Port::fresh(), Port::fresh()];
    let fresh = Board { ports, settings: FACTORY, profile, tallies: [Tally::default(); 2] };
    let refused = check_page(page);
    if refused != number::DONE {
        return (refused, fresh);
    }
    // "Loading, and starting, take the body from the page if it has the entry, else from the factory page."
    let factory = factory_page();
    let started = |code: u8| {
        let value = number_of(body_of(page, &factory, code));
        // 02-05.3: "Old pages that hold them stay sound: starting uses the factory value".
        if usable(code, value) {
            value
        } else {
            FACTORY.value(code)
        }
    };
    let settings = FACTORY
        .with(BAUD, started(BAUD))
        .with(ACCELEROMETER, started(ACCELEROMETER))
        .with(GYROSCOPE, started(GYROSCOPE));
    (number::DONE, Board { settings, ..fresh })
}

/// What starting a board in place answers; the held counts, the settings and the profile are put into the board by its
/// owner, and so are zeros for the totals of both ports.
#[derive(Clone, Copy, Debug, PartialEq, Eq)]
pub struct StartedInPlace {
    pub number: u8,
    pub settings: Settings,
    pub profile: Profile,
}

/// Starting a board that its owner keeps, whose ports have these bytes. It is no call of the paper's; see READINGS.md.
///
/// "17 | board unsound" where an array is not a port's: nothing is written. Else both become a fresh port's, also where
/// the page is refused: a refusal of starting returns "the factory settings and two fresh ports".
pub fn start_in_place(profile: Profile, first: &mut [u8], second: &mut [u8], page: &[u8]) -> StartedInPlace {
    if first.len() != Port::MOST_HELD || second.len() != Port::MOST_HELD {
        return StartedInPlace { number: number::UNSOUND, settings: FACTORY, profile };
    }
    let (number, board) = start(profile, page);
    first.copy_from_slice(&board.ports[0].bytes);
    second.copy_from_slice(&board.ports[1].bytes);
    StartedInPlace { number, settings: board.settings, profile: board.profile }
}

/// 01-023: "It answers the number, the bytes taken, the bytes skipped, whether a save was accepted, and the new board." So
/// does a silence, which takes no byte. 02-13.4: the driver is told the "first error" too.
#[derive(Clone, Debug, PartialEq, Eq)]
pub struct Fed {
    pub number: u8,
    pub taken: usize,
    pub skipped: usize,
    /// The error in the first row of the reply; 0 where there is no reply.
    pub error: u8,
    pub saved: bool,
    pub board: Board,
}

/// How the held bytes leave the scan.
enum Left {
    Skip,
    Undecided,
    Good(usize),
    Damaged(usize),
}

fn look_at(held: &[u8]) -> Left {
    match held {
        // Nothing held speaks against a message, and it is too short for one: undecided.
        [] => Left::Undecided,
        // "the first byte is not A5, [..]: one byte is skipped;"
        [first, ..] if *first != 0xA5 => Left::Skip,
        // "or a second byte is there and is not A5: one byte is skipped;"
        [_, second, ..] if *second != 0xA5 => Left::Skip,
        // 02-01.3: "When the front is A5 A5 and a third byte is there and is A5, the scan skips one byte and reports
        // nothing."
        [_, _, 0xA5, ..] => Left::Skip,
        // "otherwise, until L + 6 bytes are there, it is undecided;"
        [_, _, _, l, ..] if held.len() >= usize::from(*l) + 6 => {
            let whole = length_of(held) + 6;
            if sums_right(&held[..whole]) {
                Left::Good(whole)
            } else {
                Left::Damaged(whole)
            }
        }
        _ => Left::Undecided,
    }
}

/// 01-084: "a feed 16 to 20"; 01-085: "Order as listed". 02-06.8: "16 to 20 as for a feed." 0 where none applies.
fn refusal(port: u8, board: &Board, room: &[u8], page: &[u8]) -> u8 {
    // "16 | port not 0 or 1"
    if port != 0 && port != 1 {
        return number::PORT;
    }
    // "17 | board unsound: a port holds over 260, or a working value is not allowed"; 02-05.4: "A board record holding
    // them is unsound (17)."
    if board.ports.iter().any(|port| port.held > Port::MOST_HELD) || !board.settings.usable() {
        return number::UNSOUND;
    }
    // "18 | room too small: feed under 16 bytes"; 02-02.5: "The feed's room grows to 166, number 18 below that."
    if room.len() < Port::LONGEST_REPLY {
        return number::ROOM;
    }
    // "19 | page not 64 bytes"; "20 | page neither blank nor sound"
    check_page(page)
}

/// 01-021: "A feed names a port (0 or 1), the board, a chunk, a reply room and the page."
pub fn feed(port: u8, board: &Board, chunk: &[u8], room: &mut [u8], page: &mut [u8]) -> Fed {
    go_on(port, board, Undecided::Take(chunk), room, page)
}

/// 02-06.2: "The driver knows a silent line." 02-06.3: "a call for one port: the scan goes on over the held bytes". What it
/// is not given is a chunk.
pub fn silence(port: u8, board: &Board, room: &mut [u8], page: &mut [u8]) -> Fed {
    go_on(port, board, Undecided::Skip, room, page)
}

/// What is done where the held bytes leave the scan undecided.
#[derive(Clone, Copy)]
enum Undecided<'a> {
    /// 01-022: "It takes a byte from the chunk only when the held bytes leave the scan undecided,"
    Take(&'a [u8]),
    /// 02-06.3: "each time it is undecided the front byte is skipped with no error;"
    Skip,
}

/// A feed, or a silence.
fn go_on(port: u8, board: &Board, undecided: Undecided, room: &mut [u8], page: &mut [u8]) -> Fed {
    // "A refusal takes 0 bytes, skips 0, returns the board given [..] and writes nothing."
    let refused = refusal(port, board, room, page);
    if refused != number::DONE {
        return Fed { number: refused, taken: 0, skipped: 0, error: 0, saved: false, board: *board };
    }

    let named = &board.ports[usize::from(port)];
    let Stopped { message, taken, skipped, good, held } = scan_on(named.bytes[..named.held].to_vec(), undecided);
    let mut board = with_held(board, port, &held);
    let Some(message) = message else {
        board.tallies[usize::from(port)].count(&Done { taken, skipped, good, error: None });
        return Fed { number: number::USED_UP, taken, skipped, error: 0, saved: false, board };
    };
    let Reported { error, saved, settings } = report(port, &message, &board, room, page);
    board.settings = settings;
    board.tallies[usize::from(port)].count(&Done { taken, skipped, good, error: Some(error) });
    Fed { number: number::DONE, taken, skipped, error, saved, board }
}

/// Where the scan stopped: the message that was reported, if one was, what was taken and skipped, the length of the message if
/// it was a good one, else 0, and what is held.
struct Stopped {
    message: Option<Vec<u8>>,
    taken: usize,
    skipped: usize,
    good: usize,
    held: Vec<u8>,
}

fn scan_on(mut held: Vec<u8>, undecided: Undecided) -> Stopped {
    let mut taken = 0;
    let mut skipped = 0;
    let mut good = 0;
    let message = loop {
        match (look_at(&held), undecided) {
            // "and stops at the first reported message"
            (Left::Good(whole), _) => {
                good = whole;
                break Some(held.drain(..whole).collect());
            }
            (Left::Damaged(whole), _) => {
                let message = held[..whole].to_vec();
                held.remove(0);
                skipped += 1;
                break Some(message);
            }
            (Left::Undecided, Undecided::Take(chunk)) if taken < chunk.len() => {
                held.push(chunk[taken]);
                taken += 1;
            }
            // "or at the chunk's end."
            (Left::Undecided, Undecided::Take(_)) => break None,
            // 02-06.3: "or when nothing is held (1)."
            (Left::Undecided, Undecided::Skip) if held.is_empty() => break None,
            (Left::Undecided, Undecided::Skip) | (Left::Skip, _) => {
                held.remove(0);
                skipped += 1;
            }
        }
    };
    Stopped { message, taken, skipped, good, held }
}

/// 01-024: "After every accepted feed the fed port's room past its held bytes is zero, and the other port's record is
/// as it came." The same holds after every accepted silence.
fn with_held(board: &Board, port: u8, held: &[u8]) -> Board {
    let mut bytes = [0; 260];
    bytes[..held.len()].copy_from_slice(held);
    let mut board = *board;
    board.ports[usize::from(port)] = Port { bytes, held: held.len() };
    board
}

/// What handling the message that was reported came to: the error in the reply's first row, the save mark and the settings.
struct Reported {
    error: u8,
    saved: bool,
    settings: Settings,
}

/// Handles the message that came on a port, writes its reply and, where a save was accepted or a number was fresh, the
/// page.
///
/// 01-088: "A write to a room touches only the message's own bytes, from the room's front; a save writes the 64 bytes
/// of the page." 02-03.9: "The page now changes on accepted saves and on fresh numbers".
fn report(port: u8, message: &[u8], board: &Board, room: &mut [u8], page: &mut [u8]) -> Reported {
    let values = values(page).expect("the page of an accepted call is blank or sound");
    let handled = handle(board.profile, port, message, board.settings, values);
    room[..handled.reply.len()].copy_from_slice(&handled.reply);
    if handled.saved {
        // "A save puts its value in, keeps the other entries, and writes the page anew."
        page.copy_from_slice(&write_page(&handled.values));
    }
    // 02-13.2: "the first error number in the reply": each reply has a row.
    Reported { error: handled.rows[0].error, saved: handled.saved, settings: handled.settings }
}
