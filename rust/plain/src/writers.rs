//! The plain writer (01-084), the command writer (01-047, 01-048), the writer of numbered commands (02-03.1), the writer
//! of one field of a command with several (02-02.1) and the data writer (01-092).
//!
//! 01-086: "A writer answers its number and the message's length, 0 where refused." 01-088: "A write to a room touches
//! only the message's own bytes, from the room's front".

use crate::handling::{codes_of, usable, value_size, NUMBERED, PING};
use crate::message::{bytes_of, message};
use crate::number;

/// Puts a message at the room's front, or refuses with 18: "room too small: [..] under the message's length" (01-073).
fn put(message: &[u8], room: &mut [u8]) -> (u8, usize) {
    if room.len() < message.len() {
        return (number::ROOM, 0);
    }
    room[..message.len()].copy_from_slice(message);
    (number::DONE, message.len())
}

/// 01-084: "the plain writer (any type and payload) 26, 18".
pub fn write_message(kind: u8, payload: &[u8], room: &mut [u8]) -> (u8, usize) {
    // "26 | payload over 255"
    if payload.len() > 255 {
        return (number::PAYLOAD, 0);
    }
    put(&message(kind, payload), room)
}

/// One field of a command of this type. 01-048: "Functions 2 to 5 are written without a value, Ping without both; what
/// is not written is not looked at." Nothing where the board does not accept a message of this type with this field.
fn command_field(kind: u8, code: u8, function: u8, value: u32) -> Option<Vec<u8>> {
    if !codes_of(kind).contains(&code) {
        return None;
    }
    if code == PING {
        return Some(vec![PING, 0]);
    }
    match function {
        // 02-05.5: "The command writer refuses them (28)."
        1 if usable(code, value) => {
            let size = value_size(code).expect("a setting has a value");
            let mut field = vec![code, 1 + size as u8, function];
            field.extend(bytes_of(value, size));
            Some(field)
        }
        2..=5 => Some(vec![code, 1, function]),
        _ => None,
    }
}

/// 01-047: "The command writer is given a code, a function and a value." 01-084: "the command writer 28, 18".
pub fn write_command(code: u8, function: u8, value: u32, room: &mut [u8]) -> (u8, usize) {
    let kind = kind_with(code);
    match command_field(kind, code, function, value) {
        Some(field) => put(&message(kind, &field), room),
        // "28 | command to be written is not one the board accepts"
        None => (number::COMMAND, 0),
    }
}

/// The type of the command that is written with this code.
fn kind_with(code: u8) -> u8 {
    match code {
        PING => 0x01,
        _ => 0x02,
    }
}

/// A numbered command. 02-03.1: "type 7C: a four-byte number, then a command's type and its fields", here the one field
/// that the command writer writes. It is no call of the papers'; its numbers are the command writer's, 28 and then 18.
pub fn write_numbered(number: u32, code: u8, function: u8, value: u32, room: &mut [u8]) -> (u8, usize) {
    let kind = kind_with(code);
    match command_field(kind, code, function, value) {
        Some(field) => put(&message(NUMBERED, &[bytes_of(number, 4), vec![kind], field].concat()), room),
        None => (number::COMMAND, 0),
    }
}

/// Puts one field of a command of this type behind the first `length` bytes of the room, a payload that is being made;
/// the plain writer makes the message. It is no call of the papers'. 28, then 18 where the room has not `length` bytes
/// and those of the field. Answers the number and the payload's new length, 0 where refused; touches only the field's
/// own bytes.
pub fn append_field(kind: u8, code: u8, function: u8, value: u32, length: usize, room: &mut [u8]) -> (u8, usize) {
    let Some(field) = command_field(kind, code, function, value) else {
        return (number::COMMAND, 0);
    };
    match room.get_mut(length..) {
        Some(left) if left.len() >= field.len() => {
            left[..field.len()].copy_from_slice(&field);
            (number::DONE, length + field.len())
        }
        _ => (number::ROOM, 0),
    }
}

/// 01-092: "The writer makes 81 then 82, 34 bytes". 01-084: "the data writer 18". The axes are bits.
pub fn write_data(acceleration: [u32; 3], rate: [u32; 3], room: &mut [u8]) -> (u8, usize) {
    let mut payload = Vec::new();
    for (code, axes) in [(0x81, acceleration), (0x82, rate)] {
        payload.push(code);
        payload.push(12);
        for axis in axes {
            payload.extend(bytes_of(axis, 4));
        }
    }
    put(&message(0xA2, &payload), room)
}
