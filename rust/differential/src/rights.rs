//! Wrong ways to handle what comes on the ports of a read-only board, put together from the plain handling of separate fields and
//! of a full board's port 1; and calls that lose or ignore the profile. A fault writes what they give over the library's answer.

use crate::calls::{self, Fed};
use crate::faults::Fault;
use crate::folds::{Before, Reported};
use ketphiroj::ffi::{self, Started, StartedInPlace};
use ketphiroj::Board;
use plain::{Handled, Profile, Row};

/// What the fault gives of a message; none where it does not show.
pub fn wrong(fault: Fault, reported: &Reported) -> Option<Handled> {
    let good = plain::sums_right(&reported.message);
    let mut handled = match (reported.kind(), good) {
        (0x7C, false) if reported.restricted() && fault == Fault::Error7BeforeSums => {
            Some(reported.refused(reported.payload().first().copied().unwrap_or(0), 7))
        }
        (0x7C, true) if reported.restricted() => numbered(fault, reported),
        (0x01 | 0x02, true) => command(fault, reported),
        _ => None,
    }?;
    if handled.reply.is_empty() {
        handled.reply = plain::reply_of(reported.kind(), &handled.rows);
    }
    Some(handled)
}

/// As a board of the full profile handles the message on this port.
fn as_full(reported: &Reported) -> Handled {
    plain::handle(Profile::Full, reported.port, &reported.message, reported.settings, reported.values)
}

/// Of a good message of type 7C on port 1 of a read-only board.
fn numbered(fault: Fault, reported: &Reported) -> Option<Handled> {
    let (payload, full) = (reported.payload(), as_full(reported));
    let echo = payload.get(5).copied().unwrap_or(0);
    let refused = reported.refused(echo, 7);
    let inside = payload.get(5..).and_then(plain::fields_of).unwrap_or_default();
    let report = |field: &plain::Part| field.data.first() == Some(&2);
    match fault {
        Fault::ReadOnlyNumberTaken => Some(full),
        // The reply says 7, and the number is spent all the same.
        Fault::ReadOnlyNumberSpent if full.saved => {
            let last_number = full.values.last_number;
            let values = plain::Values { last_number, ..reported.values };
            Some(Handled { saved: true, values, ..refused })
        }
        Fault::ReadOnlyNumberMarked if full.saved => Some(Handled { saved: true, ..refused }),
        Fault::ReadOnlyNumberedPing if payload.get(4) == Some(&0x01) => Some(full),
        Fault::ReadOnlyNumberedReport if !inside.is_empty() && inside.iter().all(report) => Some(full),
        Fault::Error7After5 if full.rows[0].error == 5 => Some(full),
        Fault::Error7AfterLength if payload.len() < 5 => Some(full),
        Fault::Error7AfterInnerType if full.saved && full.rows[0].error == 2 => Some(reported.refused(echo, 2)),
        Fault::RowForEachInner if (2..=16).contains(&inside.len()) => {
            let rows = inside.iter().map(|field| Row { echo: field.code, error: 7, value: None });
            Some(Handled { rows: rows.collect(), ..refused })
        }
        Fault::ReadOnlyEchoOfNumber => Some(reported.refused(*payload.first()?, 7)),
        Fault::ReadOnlyEchoOfType => Some(reported.refused(*payload.get(4)?, 7)),
        Fault::ReadOnlyEchoZero => Some(reported.refused(0, 7)),
        _ => None,
    }
}

/// A field's first data byte, which is the function of a setting; none where it has no data.
fn function(field: &[u8]) -> Option<u8> {
    field.get(2).copied()
}

fn changes(field: &[u8]) -> bool {
    matches!(function(field), Some(1 | 3 | 4 | 5))
}

/// Of a good message of type 01 or 02.
fn command(fault: Fault, reported: &Reported) -> Option<Handled> {
    if reported.restricted() && fault == Fault::Error7BeforeFilling {
        let payload = reported.payload();
        let filled = reported.fields().is_some_and(|fields| fields.len() <= 16);
        return (!filled && changes(payload)).then(|| reported.refused(payload[0], 7));
    }
    let fields = reported.fields().filter(|fields| (1..=16).contains(&fields.len()))?;
    let right = fold(reported, &fields, |_, _, _| None);
    if reported.restricted() && fault == Fault::Error7Whole {
        return right.rows.iter().any(|row| row.error == 7).then(|| reported.refused(fields[0][0], 7));
    }
    let handled = fold(reported, &fields, |alone, field, right| other(fault, alone, field, right));
    (handled != right).then_some(handled)
}

/// The fields one after the other, each as it is to be handled, or as told instead.
fn fold(
    reported: &Reported,
    fields: &[&[u8]],
    instead: impl Fn(&Reported, &[u8], &Handled) -> Option<Handled>,
) -> Handled {
    let mut so_far = Handled { rows: Vec::new(), ..reported.refused(0, 0) };
    for field in fields {
        let message = plain::message(reported.kind(), field);
        let (settings, values) = (so_far.settings, so_far.values);
        let right = plain::handle(reported.profile, reported.port, &message, settings, values);
        let alone = Reported { message, settings, values, ..*reported };
        let one = instead(&alone, field, &right).unwrap_or(right);
        so_far.rows.extend(one.rows);
        so_far.saved |= one.saved;
        so_far.settings = one.settings;
        so_far.values = one.values;
    }
    so_far
}

/// What the fault makes of one field, given as a separate message; none where it is handled as it is to be.
fn other(fault: Fault, alone: &Reported, field: &[u8], right: &Handled) -> Option<Handled> {
    let error = right.rows[0].error;
    let seven = || Some(alone.refused(field[0], 7));
    match fault {
        _ if alone.restricted() => on_port_1(fault, alone, field, right),
        Fault::Error7OnPort0 if alone.profile == Profile::ReadOnly && changes(field) && error != 3 => seven(),
        Fault::Error7WhenFull if alone.port == 1 && changes(field) && error != 3 => seven(),
        _ => None,
    }
}

/// The same of a field on port 1 of a read-only board.
fn on_port_1(fault: Fault, alone: &Reported, field: &[u8], right: &Handled) -> Option<Handled> {
    let (full, error) = (as_full(alone), right.rows[0].error);
    let own = full.rows[0].error;
    let setting = alone.kind() == 0x02 && plain::value_size(field[0]).is_some();
    let with = |error: u8| Some(alone.refused(field[0], error));
    match (fault, function(field)) {
        (Fault::ReadOnlyUse, Some(1)) | (Fault::ReadOnlySave, Some(3)) => Some(full),
        (Fault::ReadOnlyLoad, Some(4)) | (Fault::ReadOnlyFactory, Some(5)) => Some(full),
        // The reply says 7, and the command is done all the same.
        (Fault::ReadOnlyUseUntold, Some(1)) if error == 7 => Some(Handled { rows: right.rows.clone(), ..full }),
        (Fault::ReadOnlySaveKept, Some(3)) if error == 7 => {
            Some(Handled { rows: right.rows.clone(), saved: false, ..full })
        }
        (Fault::ReadOnlySaveMarked, Some(3)) if error == 7 => Some(Handled { saved: true, ..right.clone() }),
        (Fault::Error7Before3, _) if error == 3 && changes(field) => with(7),
        (Fault::Error7Behind4, _) if error == 7 && own == 4 => with(4),
        (Fault::Error7Behind6, _) if error == 7 && own == 6 => with(6),
        (Fault::Error7As5, _) if error == 7 => with(5),
        (Fault::Error7ForReport, Some(2)) if setting => with(7),
        (Fault::Error7ForPing, _) if error == 0 && field[0] == 0x02 => with(7),
        (Fault::Error7ForSize0, None) if setting => with(7),
        (Fault::Error7ForOthers, Some(_)) if setting && error == 4 && function(field) != Some(2) => with(7),
        _ => None,
    }
}

/// A start by value that loses the profile where it is refused, or does not look at it.
pub fn start(fault: Fault, readonly: bool, page: &[u8]) -> Started {
    let mut started = ffi::start(readonly, page);
    match fault {
        Fault::RefusedStartLosesProfile if started.number != 0 => started.board.readonly = false,
        Fault::StartIgnoresProfile | Fault::BothAreFull => started.board.readonly = false,
        _ => {}
    }
    started
}

/// The same of what a start in place answered.
pub fn started_in_place(fault: Fault, started: &mut StartedInPlace) {
    match (fault, started.number) {
        (Fault::RefusedStartInPlaceLosesProfile, 19 | 20) => started.readonly = false,
        (Fault::WrongArrayLosesProfile, 17) => started.readonly = false,
        (Fault::StartInPlaceIgnoresProfile, 0) => started.readonly = false,
        _ => {}
    }
}

/// A feed that is made in another profile than the board's: never as of a read-only board, or as the board was that was started
/// last. None for the other faults.
pub fn feed_in_another(fault: Fault, last: bool, before: &Before, room: &mut [u8], page: &mut [u8]) -> Option<Fed> {
    let readonly = match fault {
        Fault::ProfileIgnored => false,
        Fault::ProfileOfLastStart => last,
        _ => return None,
    };
    Some(in_profile(readonly, before.board, |board| calls::feed(before.port, board, before.chunk, room, page)))
}

/// The same of a silence.
pub fn silence_in_another(fault: Fault, last: bool, before: &Before, room: &mut [u8], page: &mut [u8]) -> Option<Fed> {
    let readonly = match fault {
        Fault::ProfileIgnored | Fault::SilenceIgnoresProfile => false,
        Fault::ProfileOfLastStart => last,
        _ => return None,
    };
    Some(in_profile(readonly, before.board, |board| calls::silence(before.port, board, room, page)))
}

/// A call that is made in this profile, and leaves the board's as it was.
fn in_profile(readonly: bool, board: Board, call: impl FnOnce(Board) -> Fed) -> Fed {
    let fed = call(Board { readonly, ..board });
    Fed { board: Board { readonly: board.readonly, ..fed.board }, ..fed }
}

/// Faults in the profile that a call leaves, and in what of port 1 a call of port 0 lets be seen.
pub fn change_answer(fault: Fault, before: &Before, fed: &mut Fed) {
    match (fault, fed.number) {
        (Fault::FeedLosesProfile, 0 | 1) | (Fault::RefusedFeedLosesProfile, 16..) => fed.board.readonly = false,
        (Fault::SkippedOfOtherPort, 1) if before.port == 0 && before.board.second.held > 4 => fed.skipped += 1,
        _ => {}
    }
}

/// But for its fault, a wrong handling is the right one: what is put together from separate fields is what the plain reading
/// gives for the one message.
#[test]
fn right_without_a_fault() {
    use plain::generate::{self, numbered, readonly, Rng};
    let mut rng = Rng::new(0x12);
    for _ in 0..20_000 {
        let values = numbered::values(&mut rng);
        let message = readonly::piece(&mut rng, values.last_number);
        if plain::check_message(&message) != 0 {
            continue;
        }
        let (settings, port) = (generate::usable_settings(&mut rng), rng.below(2) as u8);
        let profile = rng.pick(&Profile::ALL);
        let expected = plain::handle(profile, port, &message, settings, values);
        let reported = Reported::new(profile, port, message, settings, values);
        assert_eq!(wrong(Fault::JunkKept, &reported), None);
        let fields = reported.fields().filter(|fields| (1..=16).contains(&fields.len()));
        if let Some(fields) = fields.filter(|_| matches!(reported.kind(), 0x01 | 0x02)) {
            let right = fold(&reported, &fields, |_, _, _| None);
            assert_eq!(Handled { reply: plain::reply_of(reported.kind(), &right.rows), ..right }, expected);
        }
    }
}
