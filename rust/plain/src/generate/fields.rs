//! Commands of several fields and replies of several rows, whole and wrong, and streams of them.
//!
//! They stand beside the generators of single commands, whose material is not to change.

use super::{accepted_command, code, damage, kind, listed_value, offered, piece, ranges, usable_value, value};
use super::{with_restarts, Call, Rng, Step};
use crate::message::bytes_of;
use crate::{message, value_size};

/// The three settings.
pub const SETTINGS: [u8; 3] = [0x01, 0x07, 0x08];

/// A type for a command of several fields: mostly 02, which has the settings, now and then one that takes no fields.
pub fn kind_of_fields(rng: &mut Rng) -> u8 {
    match rng.below(16) {
        0 => kind(rng),
        1..=3 => 0x01,
        _ => 0x02,
    }
}

/// How many fields or rows: 0 to 17, the ends more often.
pub fn count(rng: &mut Rng) -> usize {
    match rng.below(4) {
        0 => rng.pick(&[1, 2, 15, 16, 17]),
        1 => rng.between(2, 4),
        _ => rng.below(18),
    }
}

/// The bytes of a field of a setting: function and value.
pub fn setting(code: u8, function: u8, value: u32) -> Vec<u8> {
    let size = value_size(code).expect("a setting has a value");
    [vec![code, 1 + size as u8, function], bytes_of(value, size)].concat()
}

/// A field that the board accepts in a message of this type, 01 or else 02, where its page has no range of an older board.
pub fn accepted_field(rng: &mut Rng, kind: u8) -> Vec<u8> {
    if kind == 0x01 {
        return vec![0x02, 0];
    }
    let code = rng.pick(&SETTINGS);
    match rng.between(1, 5) as u8 {
        1 => setting(code, 1, usable_value(rng, code)),
        function if rng.chance(1, 3) => setting(code, function, rng.word() as u32),
        function => vec![code, 1, function],
    }
}

/// A field of a message of this type that has as many data bytes as its size says. Code, function, value and size may
/// be wrong.
pub fn field(rng: &mut Rng, kind: u8) -> Vec<u8> {
    let code = match rng.below(6) {
        0 => code(rng),
        _ if kind == 0x01 => 0x02,
        _ => rng.pick(&SETTINGS),
    };
    let data = match rng.below(8) {
        0 => {
            let size = if rng.chance(1, 4) { rng.below(60) } else { rng.below(8) };
            rng.bytes(size)
        }
        1 | 2 => {
            let function = rng.pick(&[0, 1, 2, 3, 4, 5, 6, 255]);
            let size = value_size(code).unwrap_or(0);
            [vec![function], bytes_of(value(rng, code), size)].concat()
        }
        3 if kind != 0x01 => return ranges::field(rng),
        _ => return accepted_field(rng, kind),
    };
    [vec![code, data.len() as u8], data].concat()
}

/// This many fields, of at most 255 bytes in all.
pub fn row(rng: &mut Rng, kind: u8, count: usize) -> Vec<u8> {
    row_within(rng, kind, count, 255)
}

/// This many fields, of at most `most` bytes in all, which is twice the count or more.
pub fn row_within(rng: &mut Rng, kind: u8, count: usize, most: usize) -> Vec<u8> {
    let mut payload = Vec::new();
    for place in 0..count {
        let field = field(rng, kind);
        // Two bytes at least are left for each that comes after it.
        if payload.len() + field.len() + 2 * (count - 1 - place) <= most {
            payload.extend(field);
        } else {
            payload.extend([field[0], 0]);
        }
    }
    payload
}

/// A payload that fields do not fill: a code alone, a size past the end, or the last byte missing.
pub fn unfilled(rng: &mut Rng, kind: u8) -> Vec<u8> {
    let count = rng.below(18);
    let mut payload = row(rng, kind, count);
    match rng.below(4) {
        0 if payload.len() <= 250 => {
            let data = rng.below(4);
            let size = data + if rng.chance(1, 2) { 1 } else { rng.between(1, 200) };
            payload.extend([code(rng), size as u8]);
            payload.extend(rng.bytes(data));
        }
        1 if !payload.is_empty() => {
            payload.pop();
        }
        _ if payload.len() < 255 => payload.push(code(rng)),
        _ => {
            payload.pop();
        }
    }
    payload
}

/// A message of up to 17 fields, or one whose payload fields do not fill; the sums are right.
pub fn several(rng: &mut Rng) -> Vec<u8> {
    let kind = kind_of_fields(rng);
    if rng.chance(1, 6) {
        return message(kind, &unfilled(rng, kind));
    }
    let count = count(rng);
    if rng.chance(1, 3) {
        let fields: Vec<u8> = (0..count).flat_map(|_| accepted_field(rng, kind)).collect();
        return message(kind, &fields);
    }
    message(kind, &row(rng, kind, count))
}

/// The three settings in any order, each with this function; function 1 with a usable value.
pub fn three(rng: &mut Rng, function: u8) -> Vec<u8> {
    let mut codes = SETTINGS;
    codes.rotate_left(rng.below(3));
    if rng.chance(1, 2) {
        codes.swap(0, 1);
    }
    let field = |code| match function {
        1 => setting(code, 1, usable_value(rng, code)),
        _ => vec![code, 1, function],
    };
    codes.into_iter().flat_map(field).collect()
}

/// Three settings at a time: used, saved, others used, loaded and reported; each in a message of its own, or all in
/// one.
pub fn three_settings(rng: &mut Rng) -> Vec<u8> {
    let functions = [1, 3, 1, 4, 2].map(|function| three(rng, function));
    if rng.chance(1, 2) {
        return message(0x02, &functions.concat());
    }
    functions.into_iter().flat_map(|fields| message(0x02, &fields)).collect()
}

/// One piece of a stream with messages of several fields.
pub fn piece_with_fields(rng: &mut Rng) -> Vec<u8> {
    match rng.below(10) {
        0..=5 => several(rng),
        6 => three_settings(rng),
        7 => {
            let whole = several(rng);
            damage(rng, whole)
        }
        8 => accepted_command(rng),
        _ => piece(rng),
    }
}

/// A list of feeds of two streams of such pieces, [`offered`] to the board.
pub fn calls_with_fields(rng: &mut Rng, page: &[u8], pieces: usize) -> Vec<Call> {
    let mut stream = || {
        let pieces = rng.below(pieces + 1);
        (0..pieces).flat_map(|_| piece_with_fields(rng)).collect::<Vec<u8>>()
    };
    let streams = [stream(), stream()];
    offered(rng, page, streams)
}

/// Such a list; one in three has restarts in it.
pub fn steps_with_fields(rng: &mut Rng, page: &[u8], pieces: usize) -> Vec<Step> {
    let calls = calls_with_fields(rng, page, pieces);
    with_restarts(rng, calls)
}

// Replies.

/// The field of a value of this code, readable or any.
fn value_field(rng: &mut Rng, code: u8) -> Vec<u8> {
    let size = value_size(code).unwrap_or(1);
    let value = if rng.chance(7, 8) { listed_value(rng, code) } else { value(rng, code) };
    [vec![code, size as u8], bytes_of(value, size)].concat()
}

/// A row as a board writes it in a reply of this type, this one or an older one.
fn right_row(rng: &mut Rng, kind: u8) -> Vec<u8> {
    if (kind == 0x02 || kind == 0x7C) && rng.chance(1, 2) {
        let code = rng.pick(&SETTINGS);
        let size = value_size(code).expect("a setting has a value");
        let value = listed_value(rng, code);
        return [vec![0x80, 2, code, 0, code, size as u8], bytes_of(value, size)].concat();
    }
    vec![0x80, 2, code(rng), rng.below(8) as u8]
}

/// A row that is mostly wrong: the field 80, its size or error, or the value behind it.
fn wrong_row(rng: &mut Rng) -> Vec<u8> {
    let code = rng.pick(&SETTINGS);
    let other = rng.pick(&[0x01, 0x02, 0x07, 0x08, 0x80, 0x81]);
    let first = |error: u8| vec![0x80, 2, code, error];
    match rng.below(9) {
        0 => [vec![0x80, 3, code, 0], rng.bytes(1)].concat(),
        1 => vec![0x80, 1, code],
        2 => first(if rng.chance(1, 2) { 8 } else { rng.between(8, 255) as u8 }),
        3 => vec![rng.byte(), 2, code, 0],
        // A value after an error, of another code, twice, of a code that has none, and of another size.
        4 => [first(rng.between(1, 7) as u8), value_field(rng, code)].concat(),
        5 => [first(0), value_field(rng, other)].concat(),
        6 => [first(0), value_field(rng, code), value_field(rng, code)].concat(),
        7 => [vec![0x80, 2, other, 0], value_field(rng, other)].concat(),
        _ => {
            let size = rng.below(6);
            [first(0), vec![code, size as u8], rng.bytes(size)].concat()
        }
    }
}

/// Something like a reply of 0 to 17 rows: half of them have a wrong row, some a byte too few or too many. The sums are
/// right.
pub fn reply_of_rows(rng: &mut Rng) -> Vec<u8> {
    let kind = kind_of_fields(rng);
    reply_of_kind(rng, kind)
}

/// Such a reply of this type.
pub fn reply_of_kind(rng: &mut Rng, kind: u8) -> Vec<u8> {
    let count = count(rng);
    let wrong = if rng.chance(1, 2) { rng.below(count.max(1)) } else { count };
    let mut payload = Vec::new();
    for place in 0..count {
        payload.extend(if place == wrong { wrong_row(rng) } else { right_row(rng, kind) });
    }
    match rng.below(16) {
        0 => payload.push(rng.byte()),
        1 => {
            payload.pop();
        }
        _ => {}
    }
    message(kind, &payload)
}
