//! The plain reading's records as the library's.

use ketphiroj::ffi::{FlatField, FlatReply, FlatValues, StartedInPlace, Written, TOTALS};
use ketphiroj::{Board, Port, Profile, ReplyError, Settings, Tally};

fn port(port: &plain::Port) -> Port {
    Port { bytes: port.bytes, held: port.held }
}

pub fn settings(settings: plain::Settings) -> Settings {
    let plain::Settings { baud, accelerometer, gyroscope } = settings;
    Settings { baud, accelerometer, gyroscope }
}

pub fn readonly(profile: plain::Profile) -> bool {
    profile == plain::Profile::ReadOnly
}

pub fn profile(profile: plain::Profile) -> Profile {
    match profile {
        plain::Profile::Full => Profile::Full,
        plain::Profile::ReadOnly => Profile::ReadOnly,
    }
}

pub fn board(board: &plain::Board) -> Board {
    Board {
        first: port(&board.ports[0]),
        second: port(&board.ports[1]),
        settings: settings(board.settings),
        readonly: readonly(board.profile),
        tally0: tally(&board.tallies[0]),
        tally1: tally(&board.tallies[1]),
    }
}

pub fn tally(tally: &plain::Tally) -> Tally {
    let plain::Tally { taken, skipped, good, errors } = *tally;
    Tally { taken, skipped, good, errors }
}

/// The other way round: the library's totals, for a law that is stated in the plain reading.
pub fn plain_tally(tally: &Tally) -> plain::Tally {
    let Tally { taken, skipped, good, errors } = *tally;
    plain::Tally { taken, skipped, good, errors }
}

/// The totals as a row, in the order of the record.
pub fn totals(tally: &plain::Tally) -> [u64; TOTALS] {
    let [e0, e1, e2, e3, e4, e5, e6, e7] = tally.errors;
    [tally.taken, tally.skipped, tally.good, e0, e1, e2, e3, e4, e5, e6, e7]
}

/// The record of which this is the row.
pub fn tally_of([taken, skipped, good, errors @ ..]: [u64; TOTALS]) -> plain::Tally {
    plain::Tally { taken, skipped, good, errors }
}

pub fn started_in_place(started: plain::StartedInPlace) -> StartedInPlace {
    let plain::StartedInPlace { number, settings: working, profile } = started;
    StartedInPlace { settings: settings(working), number, readonly: readonly(profile) }
}

pub fn written((number, length): (u8, usize)) -> Written {
    Written { number, length }
}

pub fn reply(reply: plain::Reply) -> FlatReply {
    let plain::Reply { number, kind, echo, error, value } = reply;
    FlatReply { number, kind, echo, error, has_value: value.is_some(), value: value.unwrap_or(0) }
}

/// The wrapper's error of a number, none for 0. It is named here once more, from the papers' tables, and not by the wrapper's own.
pub fn error(number: u8) -> Option<ReplyError> {
    match number {
        0 => None,
        1 => Some(ReplyError::Checksum),
        2 => Some(ReplyError::MessageType),
        3 => Some(ReplyError::MessageCode),
        4 => Some(ReplyError::Parameter),
        5 => Some(ReplyError::Number),
        6 => Some(ReplyError::Unsupported),
        7 => Some(ReplyError::NotAllowed),
        _ => panic!("no reply has the error {number}"),
    }
}

/// What field number k is, with its place and size.
pub fn field(message: &[u8], k: usize) -> FlatField {
    let (number, field) = plain::read_field(message, k);
    let (_, place, size) = plain::field_place(message, k);
    let (code, [x, y, z]) = match field {
        plain::Field::Acceleration(axes) => (0x81, axes),
        plain::Field::Rate(axes) => (0x82, axes),
        plain::Field::Unknown { code, .. } => (code, [0; 3]),
    };
    FlatField { number, code, place, size, x, y, z }
}

pub fn values(values: &plain::Values) -> FlatValues {
    FlatValues {
        has_baud: values.baud.is_some(),
        baud: values.baud.unwrap_or(0),
        has_accelerometer: values.accelerometer.is_some(),
        accelerometer: values.accelerometer.map_or(0, u32::from),
        has_gyroscope: values.gyroscope.is_some(),
        gyroscope: values.gyroscope.map_or(0, u32::from),
        has_last_number: values.last_number.is_some(),
        last_number: values.last_number.unwrap_or(0),
    }
}

/// What a call answers that copies these bytes to the room's front, or refuses with 18 where they do not fit.
pub fn put(bytes: &[u8], room: &mut [u8]) -> Written {
    if room.len() < bytes.len() {
        return written((plain::number::ROOM, 0));
    }
    room[..bytes.len()].copy_from_slice(bytes);
    written((plain::number::DONE, bytes.len()))
}
