//! The readers and writers of messages.

use crate::calls::Calls;
use crate::group::{filled, same, Outcome, Ran};
use crate::lists::hex;
use crate::records;
use ketphiroj::ffi::Written;
use ketphiroj::{Axes, Field, Refusal, Reply};
use plain::generate::{self, fields, Rng};

const FILLING: u8 = 0x77;

/// A message's writing compared: the answer, and the room with what it was filled with.
pub fn writing(
    what: &str,
    length: usize,
    library: impl FnOnce(&mut [u8]) -> Written,
    plain: impl FnOnce(&mut [u8]) -> Written,
    ran: &mut Ran,
) -> Result<(Written, Vec<u8>), String> {
    let mut room = filled(length, FILLING);
    let mut plain_room = room.clone();
    let written = library(&mut room);
    let expected = plain(&mut plain_room);
    ran.count(expected.number);
    same(what, &written, &expected).and_then(|()| same(what, &room, &plain_room))?;
    Ok((written, room))
}

/// The wrapper's writing is the library's.
pub fn wrapped(
    what: &str,
    (written, room): &(Written, Vec<u8>),
    wrapper: impl FnOnce(&mut [u8]) -> Result<usize, Refusal>,
) -> Outcome {
    let mut wrapped_room = filled(room.len(), FILLING);
    let answer = wrapper(&mut wrapped_room).map_err(Refusal::number);
    let expected = if written.number == 0 { Ok(written.length) } else { Err(written.number) };
    same(what, &answer, &expected)?;
    same(what, &wrapped_room, room)
}

/// A message of any kind: good, damaged, cut, or no message at all.
fn any_message(rng: &mut Rng) -> Vec<u8> {
    let mut message = match rng.below(12) {
        0 => generate::noise(rng),
        1 => generate::run(rng),
        2 => generate::damaged(rng),
        3 => generate::nested(rng),
        4 => long_data(rng),
        5 | 6 => generate::data(rng),
        7 => fields::reply_of_rows(rng),
        8 | 9 => generate::reply(rng),
        _ => generate::any_message(rng),
    };
    match rng.below(16) {
        0 => message.push(rng.byte()),
        1 => {
            message.pop();
        }
        2 if message.len() >= 6 => message = generate::damage(rng, message),
        _ => {}
    }
    message
}

/// A data message of many fields, up to the longest.
fn long_data(rng: &mut Rng) -> Vec<u8> {
    let length = rng.between(30, 255);
    let mut payload = Vec::new();
    while payload.len() < length {
        let (code, size) = match rng.below(4) {
            0 => (rng.pick(&[0x81, 0x82]), 12),
            1 => (rng.byte(), rng.below(60)),
            _ => (rng.pick(&[0x00, 0x80, 0x83, 0xA5]), rng.below(8)),
        };
        payload.extend([code, size as u8]);
        payload.extend(rng.bytes(size));
    }
    if payload.len() > 255 || rng.chance(1, 16) {
        payload.truncate(length);
    }
    plain::message(0xA2, &payload)
}

/// The test of one whole message, and the two readers, on the same bytes.
pub fn read_any(calls: &impl Calls, rng: &mut Rng, ran: &mut Ran) -> Outcome {
    let message = any_message(rng);
    let k = if rng.chance(1, 20) { rng.word() as usize } else { rng.below(if message.len() > 60 { 40 } else { 6 }) };
    let room = if rng.chance(1, 2) { rng.below(14) } else { rng.below(300) };
    read(calls, &message, k, room, ran).map_err(|text| format!("{text}\n  message {}, field {k}", hex(&message)))
}

fn read(calls: &impl Calls, message: &[u8], k: usize, room: usize, ran: &mut Ran) -> Outcome {
    check(calls, message, ran)?;
    reply(calls, message, 0, ran)?;
    reply(calls, message, k, ran)?;
    field(calls, message, k, ran)?;
    field_copy(calls, message, k, room, ran)
}

fn check(calls: &impl Calls, message: &[u8], ran: &mut Ran) -> Outcome {
    let number = plain::check_message(message);
    ran.count(number);
    same("check_message", &calls.check_message(message), &number)?;
    let expected = if number == 0 { Ok(()) } else { Err(number) };
    same("wrapped check", &calls.wrapped_check_message(message).map_err(Refusal::number), &expected)
}

/// One row of a reply.
pub fn reply(calls: &impl Calls, message: &[u8], row: usize, ran: &mut Ran) -> Outcome {
    let read = plain::read_reply(message, row);
    ran.count(read.number);
    same("read_reply", &calls.read_reply(message, row), &records::reply(read))?;
    let plain::Reply { number, kind, echo, error, value } = read;
    let error = records::error(error);
    let expected = if number == 0 { Ok(Reply { kind, echo, error, value }) } else { Err(number) };
    same("wrapped reply", &calls.wrapped_read_reply(message, row).map_err(Refusal::number), &expected)
}

/// One field of a data message: what it is, and where its data are.
pub fn field(calls: &impl Calls, message: &[u8], k: usize, ran: &mut Ran) -> Outcome {
    let (number, read) = plain::read_field(message, k);
    ran.count(number);
    same("read_field", &calls.read_field(message, k), &records::field(message, k))?;
    let (_, place, size) = plain::field_place(message, k);
    let expected = if number == 0 { Ok(place..place + size) } else { Err(number) };
    same("range of a field", &calls.wrapped_field_range(message, k).map_err(Refusal::number), &expected)?;
    let expected = match read {
        _ if number != 0 => Err(number),
        plain::Field::Acceleration(bits) => Ok(Field::Acceleration(Axes::from(bits))),
        plain::Field::Rate(bits) => Ok(Field::Rate(Axes::from(bits))),
        plain::Field::Unknown { code, place } => Ok(Field::Unknown { code, place }),
    };
    same("wrapped field", &calls.wrapped_read_field(message, k).map_err(Refusal::number), &expected)
}

/// A field's data, copied to a room, and as a part of the message itself: the same bytes at the same place.
pub fn field_copy(calls: &impl Calls, message: &[u8], k: usize, room: usize, ran: &mut Ran) -> Outcome {
    let (number, _) = plain::read_field(message, k);
    let part = plain::field_data(message, k);
    let expected = |room: &mut [u8]| match number {
        0 => records::put(part, room),
        refused => records::written((refused, 0)),
    };
    let _ = writing("copy_field", room, |room| calls.copy_field(message, k, room), expected, ran)?;
    let wrapped = calls.wrapped_field_data(message, k).map_err(Refusal::number);
    let expected = if number == 0 { Ok(part) } else { Err(number) };
    same("field_data", &wrapped, &expected)?;
    same("place of field_data", &wrapped.map(<[u8]>::as_ptr), &expected.map(<[u8]>::as_ptr))
}

/// Every reply of one row, and every value in its second field; its row, and one that it does not have.
pub fn all_replies(calls: &impl Calls, ran: &mut Ran) -> Outcome {
    for kind in [0x00, 0x01, 0x02, 0x03, 0x7C, 0xA2, 0xFF] {
        for echo in 0..=255 {
            for error in 0..=255 {
                reply(calls, &plain::message(kind, &[0x80, 2, echo, error]), 0, ran)?;
                reply(calls, &plain::message(kind, &[0x80, 2, echo, error]), 1, ran)?;
            }
            for value in 0..=255 {
                reply(calls, &plain::message(kind, &[0x80, 2, echo, 0, echo, 1, value]), 0, ran)?;
            }
        }
    }
    Ok(())
}

/// The plain writer with payloads of all lengths to 260, and rooms of all lengths to 280.
pub fn write_messages(calls: &impl Calls, rng: &mut Rng, ran: &mut Ran) -> Outcome {
    for length in 0..=260 {
        let payload = rng.bytes(length);
        for room in 0..=280 {
            let kind = rng.byte();
            let written = writing(
                "write_message",
                room,
                |room| calls.write_message(kind, &payload, room),
                |room| records::written(plain::write_message(kind, &payload, room)),
                ran,
            )
            .map_err(|text| format!("{text}\n  type {kind:02X}, payload {}, room {room}", hex(&payload)))?;
            wrapped("wrapped message", &written, |room| calls.wrapped_write_message(kind, &payload, room))?;
        }
    }
    Ok(())
}

fn one_command(calls: &impl Calls, given: (u8, u8, u32), room: usize, ran: &mut Ran) -> Outcome {
    let (code, function, value) = given;
    let written = writing(
        "write_command",
        room,
        |room| calls.write_command(code, function, value, room),
        |room| records::written(plain::write_command(code, function, value, room)),
        ran,
    )
    .map_err(|text| format!("{text}\n  code {code:02X}, function {function}, value {value}, room {room}"))?;
    wrapped("wrapped command", &written, |room| calls.wrapped_write_command(code, function, value, room))
}

/// The command writer: each code and function; under the board's codes each value up to 9, many others, and rooms of all
/// lengths.
pub fn write_commands(calls: &impl Calls, rng: &mut Rng, ran: &mut Ran) -> Outcome {
    for code in 0..=255 {
        for function in 0..=255 {
            let value = generate::value(rng, code);
            one_command(calls, (code, function, value), 16, ran)?;
        }
    }
    for code in [0x01, 0x02, 0x07, 0x08] {
        for function in 0..=6 {
            (0..=9).try_for_each(|value| one_command(calls, (code, function, value), 16, ran))?;
            for _ in 0..2000 {
                let value = generate::value(rng, code);
                one_command(calls, (code, function, value), rng.below(20), ran)?;
            }
        }
    }
    Ok(())
}

/// The data writer on patterns of all kinds, and what is read back.
pub fn write_data(calls: &impl Calls, rng: &mut Rng, ran: &mut Ran) -> Outcome {
    let mut axes = || [generate::bits(rng), generate::bits(rng), generate::bits(rng)];
    let (acceleration, rate) = (axes(), axes());
    let room = if rng.chance(1, 2) { 34 } else { rng.below(40) };
    let written = writing(
        "write_data",
        room,
        |room| calls.write_data(acceleration, rate, room),
        |room| records::written(plain::write_data(acceleration, rate, room)),
        ran,
    )
    .map_err(|text| format!("{text}\n  {acceleration:08X?} {rate:08X?}, room {room}"))?;
    let floats = |bits: [u32; 3]| Axes::from(bits).floats();
    wrapped("wrapped data", &written, |room| calls.wrapped_write_data([floats(acceleration), floats(rate)], room))?;
    wrapped("wrapped bits", &written, |room| calls.wrapped_write_data_bits([acceleration, rate], room))?;
    if written.0.number == 0 {
        field(calls, &written.1[..34], 0, ran)?;
        field(calls, &written.1[..34], 1, ran)?;
    }
    Ok(())
}
