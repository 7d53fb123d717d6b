//! Wrong silences, put together from right ones and from empty feeds.

use crate::calls::{self, Fed};
use crate::faults::Fault;
use crate::folds::Before;
use ketphiroj::{Board, Port};
use plain::Row;

/// What a silence with this fault answers.
pub fn silence(fault: Fault, before: &Before, room: &mut [u8], page: &mut [u8]) -> Fed {
    if let Some(fed) = untested(fault, before, room, page).or_else(|| other_scan(fault, before, room, page)) {
        return fed;
    }
    let mut fed = calls::silence(before.port, before.board, room, page);
    if plain::number::accepted(fed.number) {
        change_reading(fault, before, &mut fed, room, page);
        change_answer(fault, before, &mut fed, room, page);
    } else {
        change_refusal(fault, before, &mut fed, room);
    }
    fed
}

/// The port that is named, if there is one.
fn named(port: u8, board: &mut Board) -> Option<&mut Port> {
    match port {
        0 => Some(&mut board.first),
        1 => Some(&mut board.second),
        _ => None,
    }
}

/// Drops bytes from a port's front.
fn drop_front(port: &mut Port, count: usize) {
    port.bytes.copy_within(count..port.held, 0);
    port.held -= count;
    port.bytes[port.held..].fill(0);
}

const OTHER_SCANS: [Fault; 6] = [
    Fault::SilenceAsEmptyFeed,
    Fault::SilenceSkipsOneFront,
    Fault::SilenceDropsAll,
    Fault::SilenceDropsUncounted,
    Fault::SilenceReportsUndecided,
    Fault::SilenceSkipsHeader,
];

/// What a fault answers that does not go on as a silence does where the scan is undecided; none for the other faults.
fn other_scan(fault: Fault, before: &Before, room: &mut [u8], page: &mut [u8]) -> Option<Fed> {
    if !OTHER_SCANS.contains(&fault) {
        return None;
    }
    let port = before.port;
    let mut fed = calls::feed(port, before.board, &[], room, page);
    let Some(front) = named(port, &mut fed.board).filter(|front| fed.number == 1 && front.held > 0) else {
        return Some(fed);
    };
    let held = front.held;
    let dropped = match fault {
        Fault::SilenceSkipsOneFront => 1,
        // The header that is waited behind.
        Fault::SilenceSkipsHeader => held.min(4),
        Fault::SilenceDropsAll | Fault::SilenceDropsUncounted => held,
        Fault::SilenceReportsUndecided if held >= 4 => {
            report_undecided(front, room);
            return Some(Fed { number: 0, skipped: fed.skipped + 1, error: 1, ..fed });
        }
        _ => 0,
    };
    drop_front(front, dropped);
    let next = match fault {
        // The scan stops where it is undecided, and the bytes stay: the mark is taken for none.
        Fault::SilenceAsEmptyFeed | Fault::SilenceSkipsOneFront => calls::feed(port, fed.board, &[], room, page),
        _ => calls::silence(port, fed.board, room, page),
    };
    let counted = if fault == Fault::SilenceDropsUncounted { 0 } else { dropped };
    Some(Fed { skipped: fed.skipped + counted + next.skipped, ..next })
}

/// A header that claims more than what is held is reported as a damaged message.
fn report_undecided(front: &mut Port, room: &mut [u8]) {
    let echo = if front.held > 4 { front.bytes[4] } else { 0 };
    let reply = plain::reply_of(front.bytes[2], &[Row { echo, error: 1, value: None }]);
    room[..reply.len()].copy_from_slice(&reply);
    drop_front(front, 1);
}

/// Faults in what a right silence has read: what is skipped, held and reported.
fn change_reading(fault: Fault, before: &Before, fed: &mut Fed, room: &mut [u8], page: &mut [u8]) {
    let port = before.port;
    match fault {
        Fault::SilenceKeepsLastA5 if fed.number == 1 => keep_last_a5(before, fed),
        Fault::SilenceStopsBeforeMessage if fed.number == 0 && room[7] != 1 && fed.skipped > 0 => {
            stop_before_message(before, fed, room, page)
        }
        Fault::SilenceDropsBehind if fed.number == 0 => {
            if let Some(after) = named(port, &mut fed.board) {
                fed.skipped += after.held;
                *after = Port::new();
            }
        }
        Fault::SilenceSkippedNotCounted => {
            let (mut room, mut page) = (before.room.clone(), before.page.clone());
            fed.skipped = calls::feed(port, before.board, &[], &mut room, &mut page).skipped;
        }
        Fault::SilenceOf8Bits => fed.skipped %= 256,
        Fault::SilenceGoesOn => go_on_while(|_| true, port, fed, room, page),
        Fault::SilenceSkipsDamaged => go_on_while(|room| room[7] == 1, port, fed, room, page),
        _ => {}
    }
}

/// The last byte stays held where it is A5: a message that begins with it would cross the mark.
fn keep_last_a5(before: &Before, fed: &mut Fed) {
    let mut given = before.board;
    let last = named(before.port, &mut given).and_then(|given| given.bytes[..given.held].last().copied());
    if let (Some(0xA5), Some(after)) = (last, named(before.port, &mut fed.board)) {
        after.bytes[0] = 0xA5;
        after.held = 1;
        fed.skipped -= 1;
    }
}

/// A good message behind bytes that are skipped stays held, and the answer is 1.
fn stop_before_message(before: &Before, fed: &mut Fed, room: &mut [u8], page: &mut [u8]) {
    fed.board = before.board;
    if let Some(after) = named(before.port, &mut fed.board) {
        drop_front(after, fed.skipped);
    }
    fed.number = 1;
    fed.error = 0;
    fed.saved = false;
    room.copy_from_slice(&before.room);
    page.copy_from_slice(&before.page);
}

/// Does not stop at a message that is reported, as long as told by the room that its reply is in.
fn go_on_while(pass: impl Fn(&[u8]) -> bool, port: u8, fed: &mut Fed, room: &mut [u8], page: &mut [u8]) {
    while fed.number == 0 && pass(room) {
        let next = calls::silence(port, fed.board, room, page);
        *fed = Fed { skipped: fed.skipped + next.skipped, ..next };
    }
}

/// Faults in what else a right silence answers and writes.
fn change_answer(fault: Fault, before: &Before, fed: &mut Fed, room: &mut [u8], page: &mut [u8]) {
    let port = before.port;
    let mut given = before.board;
    match fault {
        Fault::SilenceJunkKept => {
            if let (Some(after), Some(given)) = (named(port, &mut fed.board), named(port, &mut given)) {
                after.bytes[after.held..].copy_from_slice(&given.bytes[after.held..]);
            }
        }
        Fault::SilenceClearsOtherPort => {
            if let Some(other) = named(1 - port, &mut fed.board) {
                other.bytes[other.held..].fill(0);
            }
        }
        Fault::SilenceMarkLost => fed.saved = false,
        Fault::SilencePageKept => page.copy_from_slice(&before.page),
        Fault::SilenceSettingsKept => fed.board.settings = before.board.settings,
        Fault::SilenceTakes if fed.number == 0 => fed.taken = fed.skipped,
        Fault::SilenceRoomPastReply if fed.number == 0 && room.len() > Board::REPLY => room[Board::REPLY] ^= 1,
        Fault::SilenceWritesWith1 if fed.number == 1 => room[0] ^= 1,
        // The last byte of a full port is skipped and not counted.
        Fault::SilenceOf259 if named(port, &mut given).is_some_and(|port| port.held == 260) => {
            fed.skipped -= usize::from(fed.number == 1);
        }
        _ => {}
    }
}

/// What a fault answers that leaves a test out; none where it shows nothing.
fn untested(fault: Fault, before: &Before, room: &mut [u8], page: &mut [u8]) -> Option<Fed> {
    let Before { port, mut board, .. } = *before;
    match fault {
        Fault::SilenceOnOtherPort if port < 2 => Some(calls::silence(1 - port, board, room, page)),
        Fault::SilencePort2AsPort1 if port == 2 => Some(calls::silence(1, board, room, page)),
        Fault::SilenceOtherPortUntested if port < 2 => {
            let other = named(1 - port, &mut board)?;
            let given = std::mem::replace(other, Port::new());
            let mut fed = calls::silence(port, board, room, page);
            *named(1 - port, &mut fed.board)? = given;
            Some(fed)
        }
        Fault::SilenceOldBoard if board.settings.gyroscope > 5 => {
            board.settings.gyroscope = 1;
            Some(calls::silence(port, board, room, page))
        }
        // Where nothing is reported, neither the room nor the page is needed.
        Fault::SilenceRoomUntested if room.len() < Board::REPLY => {
            let silent = calls::silence(port, board, &mut [0; Board::REPLY], &mut page.to_vec());
            (silent.number == 1).then_some(silent)
        }
        Fault::SilencePageUntested if plain::check_page(page) != 0 => {
            let silent = calls::silence(port, board, room, &mut [0xFF; 64]);
            room.copy_from_slice(&before.room);
            (silent.number == 1).then_some(silent)
        }
        _ => None,
    }
}

/// Faults in a refusal: the order of the tests, and what it leaves alone.
fn change_refusal(fault: Fault, before: &Before, fed: &mut Fed, room: &mut [u8]) {
    let unsound = before.board.first.held > 260 || before.board.second.held > 260;
    let short_room = before.room.len() < Board::REPLY;
    let page_number = plain::check_page(&before.page);
    match (fault, fed.number) {
        (Fault::SilenceUnsoundBeforePort, 16) if unsound => fed.number = 17,
        (Fault::SilenceRoomBeforeBoard, 17) if short_room => fed.number = 18,
        (Fault::SilencePageBeforeRoom, 18) if page_number == 19 => fed.number = 19,
        (Fault::SilencePageAsUnsound, 19) => fed.number = 20,
        (Fault::SilenceRefusalClears, 18) => {
            if let Some(port) = named(before.port, &mut fed.board) {
                port.bytes[port.held..].fill(0);
            }
        }
        (Fault::SilenceRefusalWrites, 20) => room[0] ^= 1,
        _ => {}
    }
}
