//! Replies of several rows, and the writer of one field.

use crate::calls::{Calls, FieldGiven};
use crate::group::{same, Outcome, Ran};
use crate::lists::hex;
use crate::messages::{reply, wrapped, writing};
use crate::records;
use ketphiroj::{Refusal, Reply};
use plain::generate::{self, fields, Rng};

/// Each row of a reply, numbers that it has no row for, and the wrapper's rows at once.
pub fn rows(calls: &impl Calls, message: &[u8], ran: &mut Ran) -> Outcome {
    let mut read = Vec::new();
    let refused = loop {
        let plain::Reply { number, kind, echo, error, value } = plain::read_reply(message, read.len());
        if number != 0 {
            break number;
        }
        read.push(Reply { kind, echo, error: records::error(error), value });
    };
    for row in (0..read.len() + 2).chain([16, 17, 1 << 32, usize::MAX]) {
        reply(calls, message, row, ran).map_err(|text| format!("{text}\n  row {row} of {}", hex(message)))?;
    }
    let expected = if read.is_empty() { Err(refused) } else { Ok(read) };
    same("wrapped rows", &calls.wrapped_read_rows(message).map_err(Refusal::number), &expected)
        .map_err(|text| format!("{text}\n  rows of {}", hex(message)))
}

/// Each count of rows in each type; then replies of all kinds, right and wrong.
pub fn replies(calls: &impl Calls, rng: &mut Rng, ran: &mut Ran) -> Outcome {
    for kind in 0..=255 {
        for count in 0..=18 {
            rows(calls, &plain::message(kind, &[0x80, 2, kind, 4].repeat(count)), ran)?;
            rows(calls, &plain::message(kind, &[0x80, 2, 7, 0, 7, 1, 2].repeat(count)), ran)?;
        }
    }
    for _ in 0..150_000 {
        let mut message = fields::reply_of_rows(rng);
        if rng.chance(1, 16) {
            message = generate::damage(rng, message);
        }
        rows(calls, &message, ran)?;
    }
    Ok(())
}

fn one_field(calls: &impl Calls, given: FieldGiven, length: usize, room: usize, ran: &mut Ran) -> Outcome {
    let FieldGiven { kind, code, function, value } = given;
    let written = writing(
        "append_field",
        room,
        |room| calls.append_field(&given, length, room),
        |room| records::written(plain::append_field(kind, code, function, value, length, room)),
        ran,
    )
    .map_err(|text| format!("{text}\n  {given:02X?}, behind {length} bytes of {room}"))?;
    wrapped("wrapped field", &written, |room| calls.wrapped_append_field(&given, length, room))
}

/// How many bytes the payload has: often about as many as the room, sometimes as many as a number can say.
fn length(rng: &mut Rng, room: usize) -> usize {
    match rng.below(8) {
        0 => usize::MAX - rng.below(12),
        1 => room + rng.below(4),
        2 => 0,
        _ => room.saturating_sub(rng.below(12)),
    }
}

/// Each type with each code and the functions about those there are; then the codes of types 01 and 02 with each value up
/// to 9, and with many values, lengths and rooms; then payloads built field by field.
pub fn append(calls: &impl Calls, rng: &mut Rng, ran: &mut Ran) -> Outcome {
    let functions = [0, 1, 2, 3, 4, 5, 6, 255];
    for kind in 0..=255 {
        for code in 0..=255 {
            let given = FieldGiven { kind, code, function: rng.pick(&functions), value: generate::value(rng, code) };
            one_field(calls, given, 3, 16, ran)?;
        }
    }
    for kind in 0..=3 {
        for code in [0x00, 0x01, 0x02, 0x03, 0x07, 0x08, 0x63] {
            for function in functions {
                for value in 0..=9 {
                    one_field(calls, FieldGiven { kind, code, function, value }, 3, 16, ran)?;
                }
                for _ in 0..500 {
                    let given = FieldGiven { kind, code, function, value: generate::value(rng, code) };
                    let room = rng.below(24);
                    one_field(calls, given, length(rng, room), room, ran)?;
                }
            }
        }
    }
    (0..5000).try_for_each(|_| built(calls, rng, ran))
}

/// A payload built field by field in one room is that of the fields; and the message of it is a command that is
/// accepted whole.
fn built(calls: &impl Calls, rng: &mut Rng, ran: &mut Ran) -> Outcome {
    let kind = rng.pick(&[0x01, 0x02, 0x02]);
    let (mut room, mut plain_room) = ([0x77; 255], [0x77; 255]);
    let (mut length, mut plain_length) = (0, 0);
    let count = rng.between(1, 16);
    for _ in 0..count {
        let code = if kind == 0x01 { 0x02 } else { rng.pick(&fields::SETTINGS) };
        let (function, value) = (rng.between(1, 5) as u8, generate::usable_value(rng, code));
        let given = FieldGiven { kind, code, function, value };
        length = calls.append_field(&given, length, &mut room).length;
        plain_length = plain::append_field(kind, code, function, value, plain_length, &mut plain_room).1;
        ran.count(0);
        same("length of the payload", &length, &plain_length)?;
        same("payload", &room[..], &plain_room[..])?;
    }
    let handled = plain::handle(
        plain::Profile::Full,
        0,
        &plain::message(kind, &room[..length]),
        plain::FACTORY,
        plain::Values::default(),
    );
    same("rows without error", &handled.rows.iter().filter(|row| row.error == 0).count(), &count)
}
