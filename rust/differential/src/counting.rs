//! Wrong ways to count: what a call adds to the totals of its port, what it tells of the error, and how a driver's record is
//! updated. A fault writes what they give over the library's answer.

use crate::calls::{self, Fed, InPlace};
use crate::faults::Fault;
use crate::folds::Before;
use crate::lists::reply_in;
use ketphiroj::ffi::{Started, Stepped, TOTALS};
use ketphiroj::{Board, Port, Tally};
use plain::Told;

/// What a fault may keep of the last call beside the board.
#[derive(Clone, Copy, Default)]
pub struct Last {
    pub tallies: [Tally; 2],
    pub error: u8,
}

/// The totals of the port that is named; of port 1 where there is none.
pub fn named_tally(port: u8, board: &mut Board) -> &mut Tally {
    match port {
        0 => &mut board.tally0,
        _ => &mut board.tally1,
    }
}

fn held(port: u8, board: &Board) -> u64 {
    let held = if port == 0 { board.first.held } else { board.second.held };
    held as u64
}

/// What a right call added to the totals of its port.
fn added(before: &Before, fed: &Fed) -> Tally {
    let (taken, skipped) = (fed.taken as u64, fed.skipped as u64);
    let good = held(before.port, &before.board) + taken - skipped - held(before.port, &fed.board);
    let mut added = Tally { taken, skipped, good, ..Tally::new() };
    if fed.number == 0 {
        added.errors[usize::from(fed.error)] = 1;
    }
    added
}

/// The totals with so much more, put together as told.
fn onto(totals: &Tally, added: &Tally, add: impl Fn(u64, u64) -> u64) -> Tally {
    let mut errors = totals.errors;
    errors.iter_mut().zip(added.errors).for_each(|(total, more)| *total = add(*total, more));
    Tally {
        taken: add(totals.taken, added.taken),
        skipped: add(totals.skipped, added.skipped),
        good: add(totals.good, added.good),
        errors,
    }
}

/// Whether a total has reached its largest figure.
fn has_stopped(totals: &Tally) -> bool {
    [totals.taken, totals.skipped, totals.good].iter().chain(&totals.errors).any(|&total| total == u64::MAX)
}

/// The same of a total of either port.
pub fn stopped(board: &Board) -> bool {
    has_stopped(&board.tally0) || has_stopped(&board.tally1)
}

/// How a total grows by the fault, by more than 0.
fn growing(fault: Fault, total: u64, more: u64) -> u64 {
    let right = total.saturating_add(more);
    match fault {
        _ if more == 0 => total,
        Fault::TotalWraps => total.wrapping_add(more),
        // One that has reached its largest figure begins anew.
        Fault::TotalReset if total == u64::MAX => more,
        Fault::TotalStopsShort => right.min(u64::MAX - 1),
        Fault::TotalOf32Bits => right.min(u64::from(u32::MAX)),
        // What does not fit is left out.
        Fault::TotalLeavesOut => total.checked_add(more).unwrap_or(total),
        _ => right,
    }
}

const OF_TOTALS: [Fault; 19] = [
    Fault::TotalWraps,
    Fault::TotalReset,
    Fault::TotalStopsShort,
    Fault::TotalOf32Bits,
    Fault::TotalLeavesOut,
    Fault::TotalsStopTogether,
    Fault::SkippedAsTaken,
    Fault::DamagedAsGood,
    Fault::DamagedSkippedWhole,
    Fault::OnlyObeyedAsGood,
    Fault::GoodWithoutHeld,
    Fault::SecondErrorCounted,
    Fault::EachRowCounted,
    Fault::LargestErrorCounted,
    Fault::Error7Uncounted,
    Fault::UsedUpCounted,
    Fault::RefusedCounted,
    Fault::OtherPortCounted,
    Fault::BothPortsCounted,
];

/// Faults in what a call counts; what it answers is right.
pub fn change_totals(fault: Fault, before: &Before, fed: &mut Fed, room: &[u8]) {
    if !OF_TOTALS.contains(&fault) {
        return;
    }
    let (port, mut given) = (before.port, before.board);
    if !plain::number::accepted(fed.number) {
        if fault == Fault::RefusedCounted {
            let counted = &mut named_tally(port, &mut fed.board).errors[0];
            *counted = counted.saturating_add(1);
        }
        return;
    }
    let right = added(before, fed);
    let added = counted(fault, before, fed, room).unwrap_or(right);
    let totals = *named_tally(port, &mut given);
    let other = *named_tally(1 - port, &mut given);
    match fault {
        Fault::TotalsStopTogether if has_stopped(&totals) => *named_tally(port, &mut fed.board) = totals,
        Fault::OtherPortCounted => {
            *named_tally(port, &mut fed.board) = totals;
            *named_tally(1 - port, &mut fed.board) = onto(&other, &right, u64::saturating_add);
        }
        Fault::BothPortsCounted => *named_tally(1 - port, &mut fed.board) = onto(&other, &right, u64::saturating_add),
        _ => *named_tally(port, &mut fed.board) = onto(&totals, &added, |total, more| growing(fault, total, more)),
    }
}

/// What the fault adds instead; none where it does not show.
fn counted(fault: Fault, before: &Before, fed: &Fed, room: &[u8]) -> Option<Tally> {
    let right = added(before, fed);
    let reply = reply_in(fed.number, room);
    let errors = || (0..).map(|row| plain::read_reply(reply, row)).take_while(|row| row.number == 0);
    let with = |error: u8| {
        let mut errors = [0; 8];
        errors[usize::from(error)] = 1;
        Some(Tally { errors, ..right })
    };
    match fault {
        Fault::SkippedAsTaken => Some(Tally { taken: right.taken + right.skipped, skipped: 0, ..right }),
        Fault::DamagedAsGood if fed.error == 1 => {
            let good = before.reported(fed)?.message.len() as u64;
            Some(Tally { good, ..right })
        }
        // All of its bytes are counted as skipped at once.
        Fault::DamagedSkippedWhole if fed.error == 1 => {
            let length = before.reported(fed)?.message.len() as u64;
            Some(Tally { skipped: right.skipped - 1 + length, ..right })
        }
        Fault::OnlyObeyedAsGood if fed.error != 0 => Some(Tally { good: 0, ..right }),
        Fault::GoodWithoutHeld => Some(Tally { good: right.good.min(right.taken), ..right }),
        Fault::SecondErrorCounted => with(errors().nth(1)?.error),
        Fault::LargestErrorCounted => with(errors().map(|row| row.error).max()?),
        Fault::EachRowCounted => {
            let mut each = [0; 8];
            errors().for_each(|row| each[usize::from(row.error)] += 1);
            Some(Tally { errors: each, ..right })
        }
        Fault::Error7Uncounted if fed.error == 7 => Some(Tally { errors: [0; 8], ..right }),
        Fault::UsedUpCounted if fed.number == 1 => with(0),
        _ => None,
    }
}

/// Faults in what a silence alone counts and tells.
pub fn change_silence(fault: Fault, before: &Before, fed: &mut Fed) {
    let mut given = before.board;
    match (fault, fed.number) {
        (Fault::SilenceUncounted, 0 | 1) => {
            *named_tally(before.port, &mut fed.board) = *named_tally(before.port, &mut given);
        }
        // What it looked at is counted as taken, once more.
        (Fault::SilenceCountedAsTaken, 0 | 1) => {
            let gone = held(before.port, &given) - held(before.port, &fed.board);
            let totals = named_tally(before.port, &mut fed.board);
            totals.taken = totals.taken.saturating_add(gone);
        }
        (Fault::SilenceErrorUntold, 0) => fed.error = 0,
        _ => {}
    }
}

/// Faults in the error that a call tells; what it counts is right. The last error is that of the call before it.
pub fn change_error(fault: Fault, last: Last, fed: &mut Fed, room: &[u8]) {
    let rows = || (0..).map(|row| plain::read_reply(reply_in(fed.number, room), row)).take_while(|row| row.number == 0);
    let error = match (fault, fed.number) {
        (Fault::ErrorUntold, 0) => Some(0),
        (Fault::ErrorOfLastRow, 0) => rows().last().map(|row| row.error),
        (Fault::ErrorOfLastCall, 1) | (Fault::RefusalTellsError, 16..) => Some(last.error),
        _ => None,
    };
    fed.error = error.unwrap_or(fed.error);
}

/// A start by value that keeps the totals of the last call.
pub fn started(fault: Fault, last: Last, started: &mut Started) {
    let [first, second] = last.tallies;
    match (fault, started.number) {
        (Fault::TotalsKeptOverStart, 0) | (Fault::TotalsKeptOverRefusedStart, 19 | 20) => {
            (started.board.tally0, started.board.tally1) = (first, second);
        }
        (Fault::SecondTotalsKept, 0) => started.board.tally1 = second,
        _ => {}
    }
}

/// A driver's record with the fault in it.
pub fn count(fault: Fault, tally: &mut Tally, told: &Told) {
    let (totals, counts) = (*tally, told.number < 2);
    calls::count(tally, &other_told(fault, told));
    let [taken, skipped] = [told.taken, told.skipped].map(|count| count as u64);
    let [before, after] = [told.before, told.after].map(|count| count as u64);
    let good = match fault {
        Fault::GoodWraps => taken.wrapping_add(before).wrapping_sub(skipped).wrapping_sub(after),
        Fault::GoodSumWraps => taken.wrapping_add(before).saturating_sub(skipped).saturating_sub(after),
        Fault::GoodSumStops => taken.saturating_add(before).saturating_sub(skipped).saturating_sub(after),
        // Each difference is at least 0.
        Fault::GoodInTwoParts => taken.saturating_sub(skipped).saturating_add(before.saturating_sub(after)),
        Fault::GoodOfTakenAlone => taken.saturating_sub(skipped),
        Fault::GoodWithNumber0Alone if told.number == 1 => 0,
        _ => return change_record(fault, &totals, tally, told),
    };
    if counts {
        tally.good = totals.good.saturating_add(good);
    }
}

/// What a record with the fault is told instead.
fn other_told(fault: Fault, told: &Told) -> Told {
    let Told { number, error, before, after, .. } = *told;
    match (fault, number) {
        (Fault::RecordedErrorOf1, 1) => Told { number: 0, ..*told },
        (Fault::RefusalRecorded, 2..) | (Fault::Number2Recorded, 2) => Told { number: 1, ..*told },
        (Fault::RefusalRecordedWhole, 16..=20) => Told { number: 0, ..*told },
        (Fault::Error8As7, 0) => Told { error: error.min(7), ..*told },
        (Fault::ErrorOf3Bits, 0) => Told { error: error % 8, ..*told },
        (Fault::HeldCountsSwapped, _) => Told { before: after, after: before, ..*told },
        _ => *told,
    }
}

/// Faults in the totals of a record that was updated rightly from these totals.
fn change_record(fault: Fault, totals: &Tally, tally: &mut Tally, told: &Told) {
    let counts = told.number < 2;
    match fault {
        Fault::RecordWraps if counts => {
            tally.taken = totals.taken.wrapping_add(told.taken as u64);
            tally.skipped = totals.skipped.wrapping_add(told.skipped as u64);
        }
        Fault::RecordReset if counts && totals.taken == u64::MAX => tally.taken = told.taken as u64,
        Fault::RecordedErrorWraps if told.number == 0 && told.error < 8 => {
            let error = usize::from(told.error);
            tally.errors[error] = totals.errors[error].wrapping_add(1);
        }
        Fault::RecordWithoutError0 => tally.errors[0] = totals.errors[0],
        Fault::Error8Uncounted if told.number == 0 && told.error > 7 => *tally = *totals,
        _ => {}
    }
}

/// The same with another row of totals.
fn with_row(given: &mut InPlace, totals: &mut [u64]) -> Stepped {
    let InPlace { port, board, quiet, chunk, .. } = *given;
    let (bytes, room, page) = (&mut *given.bytes, &mut *given.room, &mut *given.page);
    calls::call_in_place(&mut InPlace { port, bytes, board, quiet, totals, chunk, room, page })
}

/// A call in place with the fault in it: the row of totals, where it is not of its length.
pub fn call_in_place(fault: Fault, given: &mut InPlace) -> Stepped {
    let (length, wrong_row) = (given.totals.len(), given.totals.len() != TOTALS);
    match fault {
        Fault::LongerRowTaken if length > TOTALS => {
            let mut row = given.totals.to_vec();
            let stepped = with_row(given, &mut row[..TOTALS]);
            given.totals.copy_from_slice(&row);
            return stepped;
        }
        // What there is room for is counted.
        Fault::ShorterRowTaken if length < TOTALS => {
            let mut row = [given.totals, &[0; TOTALS][length..]].concat();
            let stepped = with_row(given, &mut row);
            given.totals.copy_from_slice(&row[..length]);
            return stepped;
        }
        Fault::NoRowTaken if length == 0 => return with_row(given, &mut [0; TOTALS]),
        _ => {}
    }
    let mut stepped = calls::call_in_place(given);
    match (fault, stepped.number) {
        (Fault::RowBeforePort, 16) if wrong_row => stepped.number = 17,
        (Fault::RowBehindRoom, 17) if wrong_row && given.room.len() < Board::REPLY => stepped.number = 18,
        (Fault::WrongRowCleared, 17) if wrong_row => given.totals.fill(0),
        (Fault::WrongRowClearsPort, 17) if wrong_row => given.bytes.fill(0),
        (Fault::WrongRowWritesRoom, 17) if wrong_row => given.room.fill(0),
        (Fault::WrongRowForgetsHeld, 17) if wrong_row => stepped.held = 0,
        (Fault::WrongArrayClearsRow, 17) if given.bytes.len() != Port::ROOM => given.totals.fill(0),
        _ => {}
    }
    stepped
}

/// But for its fault, a wrong count is the right one: what a call is taken to have added is what the plain reading counts.
#[test]
fn right_without_a_fault() {
    use crate::records;
    use plain::generate::{self, Rng};
    let mut rng = Rng::new(13);
    for _ in 0..20_000 {
        let (board, page) = (generate::sound_board(&mut rng), generate::sound_page(&mut rng));
        let (port, chunk) = (rng.below(2) as u8, generate::stream(&mut rng, 2));
        let plain = plain::feed(port, &board, &chunk, &mut [0; Board::REPLY], &mut page.to_vec());
        let plain::Fed { number, taken, skipped, error, saved, board: after } = plain;
        let mut before =
            Before { port, board: records::board(&board), chunk: &chunk, room: Vec::new(), page: page.to_vec() };
        let mut fed = Fed { number, taken, skipped, error, saved, board: records::board(&after) };
        let added = added(&before, &fed);
        let counted =
            onto(named_tally(port, &mut before.board), &added, |total, more| growing(Fault::JunkKept, total, more));
        assert_eq!(counted, *named_tally(port, &mut fed.board));
    }
}
