//! Reply readers, readers of a field's place and size, and writers of commands, of fields and of numbered commands that are wrong in
//! one point.

use crate::calls::{FieldGiven, NumberedGiven};
use crate::faults::Fault;
use crate::ranging::old;
use ketphiroj::ffi::{self, FlatField, FlatReply, Written};
use plain::{Part, Row};

/// What a reader with the fault answers of one row; none for faults of other calls, and for what is no whole message.
pub fn read(fault: Fault, message: &[u8], row: usize) -> Option<FlatReply> {
    if !OF_ROWS.contains(&fault) || plain::check_message(message) != 0 {
        return None;
    }
    let kind = message[2];
    let refused = |number| FlatReply { number, kind: 0, echo: 0, error: 0, has_value: false, value: 0 };
    let Some(rows) =
        plain::fields_of(&message[4..message.len() - 2]).and_then(|fields| rows(fault, kind, &fields, row))
    else {
        return Some(refused(23));
    };
    let found = match fault {
        Fault::NoRowAsLast => rows.get(row).or(rows.last()),
        Fault::RowsFromOne => row.checked_sub(1).and_then(|row| rows.get(row)),
        // A value counts as a row of its own.
        Fault::RowsCountedAsFields => {
            rows.iter().flat_map(|row| vec![row; 1 + usize::from(row.value.is_some())]).nth(row)
        }
        Fault::RowOf32Bits => rows.get(row as u32 as usize),
        _ => rows.get(row),
    };
    Some(match found {
        Some(&Row { echo, error, value }) => {
            FlatReply { number: 0, kind, echo, error, has_value: value.is_some(), value: value.unwrap_or(0) }
        }
        None if fault == Fault::NoRowAs23 => refused(23),
        None => refused(27),
    })
}

const OF_ROWS: [Fault; 23] = [
    Fault::NoRowAsLast,
    Fault::NoRowAs23,
    Fault::RowsFromOne,
    Fault::RowsCountedAsFields,
    Fault::RowOf32Bits,
    Fault::RowsBehindUntested,
    Fault::SeventeenRows,
    Fault::NoRows,
    Fault::RowsInAnyType,
    Fault::ValueInType01,
    Fault::ValueAfterError,
    Fault::ValueOfAnotherCode,
    Fault::TwoValues,
    Fault::RowOfSize3,
    Fault::Error5Refused,
    Fault::Error6Refused,
    Fault::Error7Refused,
    Fault::Error8Read,
    Fault::Reply6Refused,
    Fault::Reply7Refused,
    Fault::OneRowInNumbered,
    Fault::NoValueInNumbered,
    Fault::NumberAsValue,
];

/// The rows of a reply, with one fault in how many and where they may be.
fn rows(fault: Fault, kind: u8, fields: &[Part], asked: usize) -> Option<Vec<Row>> {
    let several = match kind {
        0x01 | 0x02 => true,
        0x7C => fault != Fault::OneRowInNumbered,
        _ => fault == Fault::RowsInAnyType,
    };
    let most = match fault {
        Fault::SeventeenRows if several => 17,
        _ if several => 16,
        _ => 1,
    };
    let least = usize::from(fault != Fault::NoRows);
    let read = match fault {
        // As far as the row that is asked for is there.
        Fault::RowsBehindUntested => {
            let beginnings = (0..=fields.len()).rev().map(|end| read_fields(fault, kind, &fields[..end]));
            beginnings.flatten().find(|rows| rows.len() > asked).or_else(|| read_fields(fault, kind, fields))
        }
        _ => read_fields(fault, kind, fields),
    };
    read.filter(|rows| (least..=most).contains(&rows.len()))
}

fn read_fields(fault: Fault, kind: u8, fields: &[Part]) -> Option<Vec<Row>> {
    let mut rows: Vec<Row> = Vec::new();
    let read = |error: u8| match error {
        5 => fault != Fault::Error5Refused,
        6 => fault != Fault::Error6Refused,
        7 => fault != Fault::Error7Refused,
        8 => fault == Fault::Error8Read,
        _ => error < 8,
    };
    for field in fields {
        match *field.data {
            [echo, error] if field.code == 0x80 && read(error) => rows.push(Row { echo, error, value: None }),
            [echo, error, _] if field.code == 0x80 && read(error) && fault == Fault::RowOfSize3 => {
                rows.push(Row { echo, error, value: None })
            }
            _ => {
                let row = rows.last_mut()?;
                row.value = Some(value(fault, kind, row, field)?);
            }
        }
    }
    Some(rows)
}

fn value(fault: Fault, kind: u8, row: &Row, field: &Part) -> Option<u32> {
    let reports = match kind {
        0x01 => fault == Fault::ValueInType01,
        0x02 => true,
        0x7C => fault != Fault::NoValueInNumbered,
        _ => false,
    };
    let number = fault == Fault::NumberAsValue && field.code == 0x70 && field.data.len() == 4;
    let right = reports
        && (row.error == 0 || fault == Fault::ValueAfterError)
        && (field.code == row.echo || fault == Fault::ValueOfAnotherCode)
        && (row.value.is_none() || fault == Fault::TwoValues)
        && (number || plain::value_size(field.code) == Some(field.data.len()));
    let value = field.data.iter().fold(0, |value: u32, &byte| value << 8 | u32::from(byte));
    (right && (number || readable(fault, field.code, value))).then_some(value)
}

fn readable(fault: Fault, code: u8, value: u32) -> bool {
    match fault {
        Fault::Reply6Refused if code == 0x08 => value != 6 && plain::readable(code, value),
        Fault::Reply7Refused if code == 0x08 => value != 7 && plain::readable(code, value),
        _ => plain::readable(code, value),
    }
}

/// What a data reader with the fault answers.
pub fn read_field(fault: Fault, message: &[u8], k: usize) -> FlatField {
    let mut read = ffi::read_field(message, k);
    if read.number != 0 {
        // Behind the last field, where there is none of that number.
        if fault == Fault::RefusedFieldPlaced && read.number == 27 {
            read.place = message.len() - 2;
        }
        return read;
    }
    let axes = read.code == 0x81 || read.code == 0x82;
    match fault {
        Fault::FieldPlace if read.place > 100 => read.place -= 4,
        // As an acceleration and a rate were read before version 0.2.0.
        Fault::AxesWithoutPlace if axes => read.place = 0,
        Fault::PlaceAtSizeByte => read.place -= 1,
        Fault::PlaceAtCode => read.place -= 2,
        Fault::PlaceInPayload => read.place -= 4,
        Fault::PlaceOf8Bits => read.place %= 256,
        Fault::EmptyFieldUnplaced if read.size == 0 => read.place = 0,
        Fault::AxesWithoutSize if axes => read.size = 0,
        Fault::SizeWithHeader => read.size += 2,
        Fault::UnknownSizeOf12 => read.size = 12,
        Fault::SizeOf7Bits => read.size %= 128,
        Fault::SizeToTheEnd => read.size = message.len() - 2 - read.place,
        _ => {}
    }
    read
}

/// The field of a command that the board no longer accepts; none for the others.
fn old_field(code: u8, function: u8, value: u32) -> Option<[u8; 4]> {
    let range = u8::try_from(value).ok().filter(|&range| old(range))?;
    (code == 0x08 && function == 1).then_some([code, 2, function, range])
}

/// What a command writer with the fault answers.
pub fn write_command(fault: Fault, code: u8, function: u8, value: u32, room: &mut [u8]) -> Written {
    match (fault, old_field(code, function, value)) {
        (Fault::OldRangeWritten, Some(field)) => ffi::write_message(0x02, &field, room),
        (Fault::RangeModulo256, _) if code != 0x01 => ffi::write_command(code, function, value % 256, room),
        _ => ffi::write_command(code, function, value, room),
    }
}

/// What a writer of numbered commands with the fault answers.
pub fn write_numbered(fault: Fault, given: &NumberedGiven, room: &mut [u8]) -> Written {
    let NumberedGiven { number, code, function, value } = *given;
    if let Some(field) = old_field(code, function, value).filter(|_| fault == Fault::OldRangeNumbered) {
        return ffi::write_message(0x7C, &[&number.to_be_bytes()[..], &[0x02], &field].concat(), room);
    }
    let number = if fault == Fault::NumberWrittenBackwards { number.swap_bytes() } else { number };
    let written = ffi::write_numbered(number, code, function, value, room);
    match (fault, written.number) {
        (Fault::RoomBeforeNumbered, 28) if room.is_empty() => Written { number: 18, length: 0 },
        (Fault::BytePastNumbered, 0) if room.len() > written.length => {
            room[written.length] = 0;
            written
        }
        // The type inside is always 02.
        (Fault::PingAsSetting, 0) if code == 0x02 => {
            let payload = [&number.to_be_bytes()[..], &[0x02, 0x02, 0]].concat();
            ffi::write_message(0x7C, &payload, room)
        }
        _ => written,
    }
}

/// What a writer of one field with the fault answers.
pub fn append(fault: Fault, given: &FieldGiven, length: usize, room: &mut [u8]) -> Written {
    let FieldGiven { kind, code, function, value } = *given;
    let append = |kind, value, room: &mut [u8]| ffi::append_field(kind, code, function, value, length, room);
    match fault {
        Fault::OldRangeAppended if kind == 0x02 => append_old(given, length, room),
        Fault::PingInType02 if kind == 0x02 && code == 0x02 => append(0x01, value, room),
        Fault::UnusedValueTested if (2..=5).contains(&function) && !plain::usable(code, value) => {
            Written { number: 28, length: 0 }
        }
        Fault::FieldRangeModulo256 if code != 0x01 => append(kind, value % 256, room),
        Fault::FieldAtTheFront => {
            let right = append(kind, value, &mut room.to_vec());
            if right.number == 0 {
                assert_eq!(ffi::append_field(kind, code, function, value, 0, room).number, 0);
            }
            right
        }
        _ => after(fault, append(kind, value, room), length, room),
    }
}

/// A writer of one field that knows all seven ranges of the gyroscope.
fn append_old(given: &FieldGiven, length: usize, room: &mut [u8]) -> Written {
    let FieldGiven { kind, code, function, value } = *given;
    let left = length.checked_add(4).and_then(|end| room.get_mut(length..end));
    match (old_field(code, function, value), left) {
        (Some(field), Some(left)) => {
            left.copy_from_slice(&field);
            Written { number: 0, length: length + 4 }
        }
        (Some(_), None) => Written { number: 18, length: 0 },
        (None, _) => ffi::append_field(kind, code, function, value, length, room),
    }
}

/// The right answer, changed by the fault.
fn after(fault: Fault, written: Written, length: usize, room: &mut [u8]) -> Written {
    match (fault, written.number) {
        (Fault::RoomBeforeCommand, 28) if room.len() < length => Written { number: 18, length: 0 },
        (Fault::LengthOfTheField, 0) => Written { number: 0, length: written.length - length },
        (Fault::LengthWraps, 18) if length > room.len() && length.wrapping_add(7) <= room.len() => {
            Written { number: 0, length: length.wrapping_add(7) }
        }
        (Fault::BytePastTheField, 0) => {
            if let Some(byte) = room.get_mut(written.length) {
                *byte = 0;
            }
            written
        }
        _ => written,
    }
}

/// But for its fault, a wrong reader is the right one: with a fault of another call it reads what the plain reader
/// reads.
#[test]
fn right_without_a_fault() {
    use plain::generate::{fields, Rng};
    let mut rng = Rng::new(23);
    for turn in 0..50_000 {
        let message =
            if turn % 2 == 0 { fields::reply_of_rows(&mut rng) } else { fields::reply_of_kind(&mut rng, 0x7C) };
        let parts = plain::fields_of(&message[4..message.len() - 2]);
        let read = parts.and_then(|parts| rows(Fault::JunkKept, message[2], &parts, 0)).unwrap_or_default();
        for (row, &Row { echo, error, value }) in read.iter().enumerate() {
            let expected = plain::Reply { number: 0, kind: message[2], echo, error, value };
            assert_eq!(plain::read_reply(&message, row), expected);
        }
        let number = if read.is_empty() { 23 } else { 27 };
        assert_eq!(plain::read_reply(&message, read.len()).number, number);
    }
}
