//! Test material from a seed: messages, damaged ones, streams, chunks, pages, boards and lists of feeds; and the
//! shrinking of a failing list. [`fields`] has the commands of several fields, and the replies to them, [`numbered`]
//! the numbered commands, the pages that keep a number, and histories of feeds and restarts, [`ranges`] the gyroscope's
//! ranges that this board no longer takes, [`silences`] false headers that hide commands, and lists with silences,
//! [`readonly`] what port 1 of a read-only board does not do, [`counting`] lists of calls of which everything is counted.
//!
//! The same seed gives the same material on every machine.

pub mod counting;
pub mod fields;
pub mod numbered;
pub mod ranges;
pub mod readonly;
pub mod silences;

use crate::message::payload_of;
use crate::{feed, message, silence, start, sums, write_page, Answered, Board, Fed, Port, Profile};
use crate::{Settings, Sums, Tally, Values};
use std::fmt;

/// Splitmix64.
#[derive(Clone, Debug, PartialEq, Eq)]
pub struct Rng {
    state: u64,
}

impl Rng {
    pub fn new(seed: u64) -> Rng {
        Rng { state: seed }
    }

    pub fn word(&mut self) -> u64 {
        self.state = self.state.wrapping_add(0x9E37_79B9_7F4A_7C15);
        let mut z = self.state;
        z = (z ^ (z >> 30)).wrapping_mul(0xBF58_476D_1CE4_E5B9);
        z = (z ^ (z >> 27)).wrapping_mul(0x94D0_49BB_1331_11EB);
        z ^ (z >> 31)
    }

    /// 0 to `limit` - 1; the limit is at least 1.
    pub fn below(&mut self, limit: usize) -> usize {
        (self.word() % limit as u64) as usize
    }

    /// `least` to `most`, both included.
    pub fn between(&mut self, least: usize, most: usize) -> usize {
        least + self.below(most - least + 1)
    }

    /// True `times` out of `of`.
    pub fn chance(&mut self, times: usize, of: usize) -> bool {
        self.below(of) < times
    }

    pub fn byte(&mut self) -> u8 {
        self.word() as u8
    }

    pub fn bytes(&mut self, count: usize) -> Vec<u8> {
        (0..count).map(|_| self.byte()).collect()
    }

    pub fn pick<T: Copy>(&mut self, from: &[T]) -> T {
        from[self.below(from.len())]
    }
}

// Values and settings.

pub const BAUDS: [u32; 6] = [9600, 19200, 115200, 230400, 460800, 921600];

/// A value for a code: listed, nearly listed or wild.
pub fn value(rng: &mut Rng, code: u8) -> u32 {
    let baud = code == 0x01;
    match rng.below(8) {
        0..=4 => listed_value(rng, code),
        5 if baud => {
            rng.pick(&[0, 1, 9599, 9601, 19201, 38400, 57600, 115201, 0x0002_C200, 0x00C2_0100, 921601, 1843200])
        }
        5 => rng.pick(&[0, 4, 5, 6, 7, 8, 9]),
        6 if baud => rng.pick(&BAUDS).rotate_left(8 * rng.between(1, 3) as u32),
        6 => rng.pick(&[0x80, 0xFF, 0xA5, 0x100, 0x101, 0x102, 0x107, 0x0100_0003]),
        _ => rng.word() as u32,
    }
}

/// A value that a page may hold and a reply may report under the code; 01, 07 and any other code as 08. It is usable, but
/// for the gyroscope's 06 and 07.
pub fn listed_value(rng: &mut Rng, code: u8) -> u32 {
    match code {
        0x01 => rng.pick(&BAUDS),
        0x07 => rng.between(1, 4) as u32,
        _ => rng.between(1, 7) as u32,
    }
}

/// A value that the board works with under the code; 01, 07 and any other code as 08.
pub fn usable_value(rng: &mut Rng, code: u8) -> u32 {
    match code {
        0x01 | 0x07 => listed_value(rng, code),
        _ => rng.between(1, 5) as u32,
    }
}

pub fn usable_settings(rng: &mut Rng) -> Settings {
    Settings {
        baud: usable_value(rng, 0x01),
        accelerometer: usable_value(rng, 0x07) as u8,
        gyroscope: usable_value(rng, 0x08) as u8,
    }
}

/// Settings of which any may be not usable.
pub fn settings(rng: &mut Rng) -> Settings {
    Settings { baud: value(rng, 0x01), accelerometer: value(rng, 0x07) as u8, gyroscope: value(rng, 0x08) as u8 }
}

// Messages with right sums.

/// A type: mostly 01 and 02.
pub fn kind(rng: &mut Rng) -> u8 {
    match rng.below(10) {
        0..=2 => 0x01,
        3..=6 => 0x02,
        7 => rng.pick(&[0x00, 0x03, 0x80, 0xA2, 0xA5]),
        8 => 0xA2,
        _ => rng.byte(),
    }
}

/// A code: mostly one of the four.
pub fn code(rng: &mut Rng) -> u8 {
    match rng.below(12) {
        0..=2 => 0x01,
        3 => 0x02,
        4..=6 => 0x07,
        7..=9 => 0x08,
        10 => rng.pick(&[0x00, 0x03, 0x04, 0x05, 0x06, 0x09, 0x63, 0x80, 0xA5]),
        _ => rng.byte(),
    }
}

/// A function: mostly 1 to 5.
pub fn function(rng: &mut Rng) -> u8 {
    match rng.below(12) {
        0 => rng.pick(&[0, 6, 7, 0x81, 0xFF]),
        1 => rng.byte(),
        _ => rng.between(1, 5) as u8,
    }
}

/// A command that the board accepts; but function 1 of the gyroscope's range comes with 06 and 07 too, which it answers
/// with error 6: the benchmark's files have these commands in them, and are to stay as they were.
pub fn accepted_command(rng: &mut Rng) -> Vec<u8> {
    if rng.chance(1, 5) {
        return message(0x01, &[0x02, 0]);
    }
    let code = rng.pick(&[0x01, 0x07, 0x08]);
    let size = if code == 0x01 { 4 } else { 1 };
    let function = rng.between(1, 5) as u8;
    let mut data = vec![function];
    if function == 1 {
        data.extend_from_slice(&listed_value(rng, code).to_be_bytes()[4 - size..]);
    } else if rng.chance(1, 3) {
        data.extend(rng.bytes(size));
    }
    let mut payload = vec![code, data.len() as u8];
    payload.extend(data);
    message(0x02, &payload)
}

/// Something like a command: any part may be a little or wholly wrong; the sums are right.
pub fn command(rng: &mut Rng) -> Vec<u8> {
    let code = code(rng);
    let kind = match rng.below(8) {
        0 => kind(rng),
        _ if code == 0x02 => 0x01,
        _ => 0x02,
    };
    let data = if code != 0x02 || rng.chance(1, 6) { field_data(rng, code) } else { Vec::new() };
    let mut payload = vec![code, data.len() as u8];
    payload.extend(data);
    spoil_field(rng, &mut payload);
    message(kind, &payload)
}

/// The data of a field: mostly a function, and a value where it takes one.
fn field_data(rng: &mut Rng, code: u8) -> Vec<u8> {
    let function = function(rng);
    let mut data = vec![function];
    let size = if code == 0x01 { 4 } else { 1 };
    let value = value(rng, code).to_be_bytes();
    match rng.below(8) {
        // Too few or too many value bytes.
        0 => {
            let count = rng.below(8);
            data.extend(rng.bytes(count));
        }
        // No value.
        1 => {}
        2..=4 if function != 1 => {}
        _ => data.extend_from_slice(&value[4 - size..]),
    }
    if rng.chance(1, 20) {
        data.clear();
    }
    data
}

/// Of payloads with one field changes one in three: its size byte, or its end.
fn spoil_field(rng: &mut Rng, payload: &mut Vec<u8>) {
    match rng.below(24) {
        // The size byte lies.
        0 => payload[1] = payload[1].wrapping_add(1),
        1 => payload[1] = payload[1].wrapping_sub(1),
        2 => payload[1] = rng.byte(),
        // More than one field, or a part of one.
        3 => payload.push(rng.byte()),
        4 => payload.extend([payload[0], 1, 2]),
        5 => {
            payload.pop();
        }
        6 => payload.truncate(1),
        7 => payload.truncate(0),
        _ => {}
    }
}

/// Any type and any payload of 0 to 255 bytes; each length comes, the ends more often.
pub fn any_message(rng: &mut Rng) -> Vec<u8> {
    let length = match rng.below(6) {
        0 => rng.pick(&[0, 1, 2, 3, 254, 255]),
        1 => rng.below(256),
        _ => rng.below(12),
    };
    let mut payload = rng.bytes(length);
    if length > 0 && rng.chance(1, 2) {
        payload[0] = code(rng);
    }
    if length > 1 && rng.chance(1, 2) {
        payload[1] = (length - 2) as u8;
    }
    message(kind(rng), &payload)
}

/// Something like a reply.
pub fn reply(rng: &mut Rng) -> Vec<u8> {
    let echo = code(rng);
    let error = if rng.chance(1, 8) { rng.byte() } else { rng.below(6) as u8 };
    let mut payload = vec![0x80, 2, echo, error];
    if rng.chance(1, 2) {
        if rng.chance(3, 4) {
            payload[3] = 0;
        }
        let size = if echo == 0x01 { 4 } else { 1 };
        payload.push(echo);
        payload.push(size as u8);
        let value = value(rng, echo).to_be_bytes();
        payload.extend_from_slice(&value[4 - size..]);
    }
    if rng.chance(1, 6) {
        let at = rng.below(payload.len());
        payload[at] = rng.byte();
    }
    match rng.below(16) {
        0 => payload.push(rng.byte()),
        1 => {
            payload.pop();
        }
        _ => {}
    }
    let kind = if rng.chance(1, 4) { kind(rng) } else { rng.pick(&[0x01, 0x02, 0x02]) };
    message(kind, &payload)
}

/// A pattern of 32 bits: numbers, zeros, infinities, NaNs quiet and signalling, any.
pub fn bits(rng: &mut Rng) -> u32 {
    match rng.below(6) {
        0 => rng.pick(&[0, 0x8000_0000, 0x3F80_0000, 0x7F80_0000, 0xFF80_0000, 1, 0x007F_FFFF, 0x0080_0000]),
        1 => rng.pick(&[0x7FC0_0000, 0xFFC0_0000, 0x7F80_0001, 0xFF80_0001, 0x7FFF_FFFF, 0xFFFF_FFFF, 0x7FA5_A5A5]),
        2 => 0x7F80_0000 | rng.word() as u32,
        _ => rng.word() as u32,
    }
}

/// Something like a data message: fields 81, 82 and others, now and then with a wrong size or a payload that they do
/// not fill.
pub fn data(rng: &mut Rng) -> Vec<u8> {
    let mut payload = Vec::new();
    for _ in 0..rng.below(5) {
        let code = match rng.below(6) {
            0 | 1 => 0x81,
            2 | 3 => 0x82,
            4 => rng.pick(&[0x80, 0x83, 0x86, 0x87, 0x00]),
            _ => rng.byte(),
        };
        let size = match rng.below(16) {
            0 => rng.below(30),
            1 => rng.pick(&[0, 4, 8, 11, 13, 16]),
            _ if code == 0x81 || code == 0x82 => 12,
            _ => rng.below(20),
        };
        payload.push(code);
        payload.push(size as u8);
        let mut row: Vec<u8> = Vec::new();
        while row.len() < size {
            row.extend(bits(rng).to_be_bytes());
        }
        row.truncate(size);
        payload.extend(row);
    }
    match rng.below(16) {
        0 => payload.push(rng.byte()),
        1 => {
            payload.pop();
        }
        _ => {}
    }
    payload.truncate(255);
    let kind = if rng.chance(1, 12) { kind(rng) } else { 0xA2 };
    message(kind, &payload)
}

/// A message whose payload has messages in it, good or damaged; the outer sums are right.
pub fn nested(rng: &mut Rng) -> Vec<u8> {
    let mut payload = Vec::new();
    if rng.chance(1, 2) {
        let count = rng.below(4);
        payload.extend(rng.bytes(count));
    }
    for _ in 0..rng.between(1, 3) {
        let inner = match rng.below(5) {
            0 => damaged(rng),
            1 if payload.len() < 60 => nested(rng),
            _ => accepted_command(rng),
        };
        payload.extend(inner);
    }
    if rng.chance(1, 3) {
        // The last message straddles the end of the outer one.
        let count = rng.below(payload.len() + 1);
        payload.truncate(count);
    }
    payload.truncate(255);
    message(kind(rng), &payload)
}

/// A message with right sums, of any of the kinds above.
pub fn any_good(rng: &mut Rng) -> Vec<u8> {
    match rng.below(16) {
        0..=5 => accepted_command(rng),
        6..=10 => command(rng),
        11 | 12 => any_message(rng),
        13 => data(rng),
        14 => reply(rng),
        _ => nested(rng),
    }
}

/// A message of type A5 with right sums, which the scan does not find.
pub fn type_a5(rng: &mut Rng) -> Vec<u8> {
    let other = any_good(rng);
    message(0xA5, payload_of(&other))
}

// Damaged ones.

/// A message that something was done to. Now and then it is whole all the same.
pub fn damaged(rng: &mut Rng) -> Vec<u8> {
    let whole = match rng.below(6) {
        0 => any_message(rng),
        1 => command(rng),
        _ => accepted_command(rng),
    };
    damage(rng, whole)
}

/// Damages a message of at least 6 bytes: bits, bytes, sums, length byte, or its end.
pub fn damage(rng: &mut Rng, mut bytes: Vec<u8>) -> Vec<u8> {
    let end = bytes.len();
    match rng.below(12) {
        // Bit flips.
        0 | 1 => {
            for _ in 0..rng.between(1, 3) {
                let at = rng.below(end);
                bytes[at] ^= 1 << rng.below(8);
            }
        }
        // Another byte.
        2 => {
            let at = rng.below(end);
            bytes[at] = rng.byte();
        }
        // Wrong sums: one off, each alone, swapped, of another modulus, without the opening.
        3 => bytes[end - 1] = bytes[end - 1].wrapping_sub(1),
        4 => bytes[end - 2] = bytes[end - 2].wrapping_add(1),
        5 => bytes.swap(end - 2, end - 1),
        6 => replace_sums(&mut bytes, 0, sums_modulo_255),
        7 => replace_sums(&mut bytes, 2, sums),
        // A wrong length byte: a little more, a little less, any.
        8 => bytes[3] = bytes[3].wrapping_add(rng.between(1, 4) as u8),
        9 => bytes[3] = bytes[3].wrapping_sub(rng.between(1, 4) as u8),
        10 => bytes[3] = rng.byte(),
        // The end is missing.
        _ => {
            let count = rng.below(end);
            bytes.truncate(count);
        }
    }
    bytes
}

/// The sums of a message become those that the function gives of its bytes, from this place to the end of the payload.
fn replace_sums(bytes: &mut [u8], from: usize, sums_of: fn(&[u8]) -> Sums) {
    let end = bytes.len();
    let Sums { f1, f2 } = sums_of(&bytes[from..end - 2]);
    bytes[end - 2..].copy_from_slice(&[f1, f2]);
}

/// The sums, but each wraps at 255.
fn sums_modulo_255(bytes: &[u8]) -> Sums {
    let (mut f1, mut f2) = (0, 0);
    for &byte in bytes {
        f1 = (f1 + u32::from(byte)) % 255;
        f2 = (f2 + f1) % 255;
    }
    Sums { f1: f1 as u8, f2: f2 as u8 }
}

// What is no message.

pub fn noise(rng: &mut Rng) -> Vec<u8> {
    let count = rng.between(1, 12);
    let mut bytes = rng.bytes(count);
    for byte in &mut bytes {
        if rng.chance(1, 4) {
            *byte = 0xA5;
        }
    }
    bytes
}

/// A run of A5. Where three and more stand at the front, all but the last two are skipped.
pub fn run(rng: &mut Rng) -> Vec<u8> {
    let count = match rng.below(16) {
        0 => rng.between(1, 300),
        1 | 2 => rng.between(4, 9),
        _ => rng.between(1, 3),
    };
    vec![0xA5; count]
}

/// A header without its message.
pub fn false_header(rng: &mut Rng) -> Vec<u8> {
    let length = if rng.chance(1, 8) { rng.byte() } else { rng.below(24) as u8 };
    let mut bytes = vec![0xA5, 0xA5, kind(rng), length];
    let count = rng.between(1, 4);
    bytes.truncate(count);
    bytes
}

// Streams and chunks.

/// One piece of a stream.
pub fn piece(rng: &mut Rng) -> Vec<u8> {
    match rng.below(24) {
        0..=12 => any_good(rng),
        13..=16 => damaged(rng),
        17 => {
            let outer = nested(rng);
            damage(rng, outer)
        }
        18 | 19 => noise(rng),
        20 | 21 => run(rng),
        _ => false_header(rng),
    }
}

/// A stream of pieces. Half of the streams are mostly commands that the board accepts: a single false length can take
/// up to 255 bytes into its message, and hides them while it is undecided.
pub fn stream(rng: &mut Rng, pieces: usize) -> Vec<u8> {
    let mostly_accepted = rng.chance(1, 2);
    let mut bytes = Vec::new();
    for _ in 0..pieces {
        if mostly_accepted && rng.chance(4, 5) {
            bytes.extend(accepted_command(rng));
        } else {
            bytes.extend(piece(rng));
        }
    }
    bytes
}

/// What stands behind a run of A5.
#[derive(Clone, Copy, Debug, PartialEq, Eq)]
pub enum Behind {
    Good,
    Damaged,
    TypeA5,
    Noise,
}

impl Behind {
    pub const ALL: [Behind; 4] = [Behind::Good, Behind::Damaged, Behind::TypeA5, Behind::Noise];
}

/// A run of `length` A5, what is to stand behind it, and up to three commands that the board accepts: they decide what
/// would stay undecided.
pub fn run_before(rng: &mut Rng, length: usize, behind: Behind) -> Vec<u8> {
    let mut bytes = vec![0xA5; length];
    bytes.extend(match behind {
        Behind::Good => any_good(rng),
        Behind::Damaged => damaged(rng),
        Behind::TypeA5 => type_a5(rng),
        Behind::Noise => noise(rng),
    });
    for _ in 0..rng.below(4) {
        bytes.extend(accepted_command(rng));
    }
    bytes
}

/// A message with a run of `length` A5 in its payload, at most 255, and a command that the board accepts. The sums are
/// right, or one of them is wrong.
pub fn run_within(rng: &mut Rng, length: usize) -> Vec<u8> {
    let before = rng.below((255 - length).min(4) + 1);
    let after = rng.below((255 - length - before).min(4) + 1);
    let payload = [rng.bytes(before), vec![0xA5; length], rng.bytes(after)].concat();
    let mut bytes = message(kind(rng), &payload);
    if rng.chance(1, 2) {
        let end = bytes.len();
        bytes[end - rng.between(1, 2)] ^= 1 << rng.below(8);
    }
    bytes.extend(accepted_command(rng));
    bytes
}

/// The length of a chunk: empty ones, single bytes, short and long ones.
pub fn chunk_length(rng: &mut Rng) -> usize {
    match rng.below(12) {
        0 => 0,
        1..=3 => 1,
        4..=7 => rng.between(2, 8),
        8..=10 => rng.between(2, 40),
        _ => rng.between(2, 600),
    }
}

/// Cuts a stream into chunks, empty ones too. Joined they are the stream.
pub fn cut(rng: &mut Rng, stream: &[u8]) -> Vec<Vec<u8>> {
    let mut chunks = Vec::new();
    let mut rest = stream;
    // One stream in four comes byte by byte.
    let single = rng.chance(1, 4);
    while !rest.is_empty() || rng.chance(1, 4) {
        let length = if single && !rng.chance(1, 8) { 1 } else { chunk_length(rng) };
        let (chunk, after) = rest.split_at(length.min(rest.len()));
        chunks.push(chunk.to_vec());
        rest = after;
    }
    chunks
}

// Profiles, ports, rooms, pages and boards.

/// One board in three is read-only.
pub fn profile(rng: &mut Rng) -> Profile {
    match rng.below(3) {
        0 => Profile::ReadOnly,
        _ => Profile::Full,
    }
}

/// Mostly 0 and 1, sometimes 2 to 255.
pub fn port(rng: &mut Rng) -> u8 {
    match rng.below(32) {
        0 => rng.between(2, 255) as u8,
        1 => 2,
        2..=19 => 0,
        _ => 1,
    }
}

/// Mostly 166, sometimes 0, 16, 165, 167 or any up to 230.
pub fn room(rng: &mut Rng) -> usize {
    match rng.below(32) {
        0 => 0,
        1 => 165,
        2 => 167,
        3 => 16,
        4 => rng.below(231),
        _ => Port::LONGEST_REPLY,
    }
}

/// Storable values under any of the three settings' codes; no number. Half of the gyroscope's ranges are no longer taken.
pub fn values(rng: &mut Rng) -> Values {
    let settings = usable_settings(rng);
    let gyroscope = if rng.chance(1, 2) { rng.pick(&ranges::OLD) } else { settings.gyroscope };
    Values {
        baud: rng.chance(1, 2).then_some(settings.baud),
        accelerometer: rng.chance(1, 2).then_some(settings.accelerometer),
        gyroscope: rng.chance(1, 2).then_some(gyroscope),
        last_number: None,
    }
}

/// A blank or sound page.
pub fn sound_page(rng: &mut Rng) -> [u8; 64] {
    if rng.chance(1, 4) {
        return [0xFF; 64];
    }
    let values = values(rng);
    write_page(&values)
}

/// The writing of any entries at all, at most six: codes that do not ascend, twice the same, unknown ones, values that
/// are not storable, bodies of wrong sizes.
pub fn odd_page(rng: &mut Rng) -> [u8; 64] {
    let mut entries: Vec<(u8, Vec<u8>)> = Vec::new();
    let count = if rng.chance(1, 8) { rng.below(7) } else { rng.between(1, 3) };
    for place in 0..count {
        let code = if rng.chance(1, 8) { code(rng) } else { [0x01, 0x07, 0x08][place % 3] };
        let size = if code == 0x01 { 4 } else { 1 };
        let mut body = value(rng, code).to_be_bytes()[4 - size..].to_vec();
        if rng.chance(1, 12) {
            let size = rng.below(6);
            body = rng.bytes(size);
        }
        entries.push((code, body));
    }
    if count > 1 && rng.chance(1, 8) {
        let (a, b) = (rng.below(count), rng.below(count));
        entries.swap(a, b);
    }
    let gap = if rng.chance(1, 12) { rng.between(1, 3) } else { 0 };
    page_of_entries(&entries, gap)
}

/// The contents and the bodies of these entries, with so many bytes FF between them.
fn page_of_entries(entries: &[(u8, Vec<u8>)], gap: usize) -> [u8; 64] {
    let mut page = vec![entries.len() as u8];
    let mut offset = 1 + 3 * entries.len() + gap;
    for (code, body) in entries {
        page.extend([*code, offset as u8, body.len() as u8]);
        offset += body.len();
    }
    page.extend(vec![0xFF; gap]);
    for (_, body) in entries {
        page.extend(body);
    }
    page.resize(64, 0xFF);
    page.try_into().expect("64 bytes")
}

/// A page: mostly blank or sound; odd, mutated, any bytes, a wrong length.
pub fn page(rng: &mut Rng) -> Vec<u8> {
    match rng.below(16) {
        0..=7 => sound_page(rng).to_vec(),
        8 | 9 => odd_page(rng).to_vec(),
        10..=12 => {
            let page = sound_page(rng);
            mutated(rng, page, 17).to_vec()
        }
        13 => {
            let mut page = rng.bytes(64);
            page[0] = rng.below(5) as u8;
            page
        }
        _ => {
            let length = other_length(rng);
            let mut page = sound_page(rng).to_vec();
            page.resize(length, 0xFF);
            page
        }
    }
}

/// A page with one to three other bytes, mostly among the first so many.
fn mutated(rng: &mut Rng, mut page: [u8; 64], first: usize) -> [u8; 64] {
    for _ in 0..rng.between(1, 3) {
        let at = if rng.chance(3, 4) { rng.below(first) } else { rng.below(64) };
        page[at] = match rng.below(4) {
            0 => page[at].wrapping_add(1),
            1 => page[at].wrapping_sub(1),
            2 => rng.pick(&[0x00, 0x01, 0x02, 0x03, 0x04, 0x07, 0x08, 0x3C, 0x40, 0xFF]),
            _ => rng.byte(),
        };
    }
    page
}

/// The length of a page, mostly not 64.
fn other_length(rng: &mut Rng) -> usize {
    match rng.below(4) {
        0 => 63,
        1 => 65,
        2 => rng.pick(&[0, 1, 10, 32, 128]),
        _ => rng.below(140),
    }
}

/// A port of at most 260 bytes held; the rest is zero, or junk.
pub fn sound_port(rng: &mut Rng) -> Port {
    let mut held = match rng.below(8) {
        0 => Vec::new(),
        1 => {
            // The longest message, but for one byte: undecided with 260, unless its type is A5.
            let mut bytes = message(kind(rng), &rng.bytes(255));
            if rng.chance(1, 2) {
                bytes[259] ^= 1;
            }
            bytes.truncate(260);
            bytes
        }
        2 => {
            let count = rng.below(261);
            rng.bytes(count)
        }
        3 => run(rng),
        4 => fields::piece_with_fields(rng),
        _ => {
            let pieces = rng.between(1, 8);
            stream(rng, pieces)
        }
    };
    let most = if rng.chance(1, 4) { 260 } else { rng.below(261) };
    held.truncate(most);
    let mut port = Port::fresh();
    if rng.chance(1, 3) {
        port.bytes = rng.bytes(260).try_into().expect("260 bytes");
    }
    port.held = held.len();
    port.bytes[..held.len()].copy_from_slice(&held);
    port
}

/// A port that may hold over 260.
pub fn any_port(rng: &mut Rng) -> Port {
    let mut port = sound_port(rng);
    if rng.chance(1, 8) {
        port.held = rng.pick(&[260, 261, 262, 300, 65536, usize::MAX]);
    }
    port
}

/// A total: none, a few, so many that a call or two reach the largest figure, that figure, or any.
pub fn total(rng: &mut Rng) -> u64 {
    match rng.below(8) {
        0 => 0,
        1 => rng.below(1000) as u64,
        2 | 3 => u64::MAX - rng.below(3) as u64,
        4 => u64::MAX - rng.below(600) as u64,
        5 => rng.pick(&[0xFF, 0xFFFF, 0xFFFF_FFFF, 0x7FFF_FFFF_FFFF_FFFF, 0x8000_0000_0000_0000]),
        _ => rng.word(),
    }
}

/// Totals of any values.
pub fn tally(rng: &mut Rng) -> Tally {
    Tally { taken: total(rng), skipped: total(rng), good: total(rng), errors: [(); 8].map(|()| total(rng)) }
}

/// The totals of both ports, any: no totals make a board unsound.
pub fn tallies(rng: &mut Rng) -> [Tally; 2] {
    [tally(rng), tally(rng)]
}

/// A sound board, with junk past the held bytes here and there.
pub fn sound_board(rng: &mut Rng) -> Board {
    let ports = [sound_port(rng), sound_port(rng)];
    Board { ports, settings: usable_settings(rng), profile: profile(rng), tallies: tallies(rng) }
}

/// A board of any contents, sound or not; some are unsound by a range of the gyroscope alone that is no longer taken.
pub fn board(rng: &mut Rng) -> Board {
    if rng.chance(2, 3) {
        let mut board = sound_board(rng);
        if rng.chance(1, 16) {
            board.settings.gyroscope = rng.pick(&ranges::OLD);
        }
        return board;
    }
    let settings = if rng.chance(1, 2) { usable_settings(rng) } else { settings(rng) };
    Board { ports: [any_port(rng), any_port(rng)], settings, profile: profile(rng), tallies: tallies(rng) }
}

// Lists of feeds.

/// One feed: the port, the chunk and the length of the room.
#[derive(Clone, Debug, PartialEq, Eq)]
pub struct Call {
    pub port: u8,
    pub chunk: Vec<u8>,
    pub room: usize,
}

/// A list of feeds. Two streams are cut into chunks and fed in a mixed order.
///
/// What a feed leaves of its chunk is lost; see [`followed`] for lists that offer it again.
pub fn calls(rng: &mut Rng, pieces: usize) -> Vec<Call> {
    let mut waiting: Vec<std::collections::VecDeque<Vec<u8>>> = Vec::new();
    for _ in 0..2 {
        let pieces = rng.below(pieces + 1);
        let stream = stream(rng, pieces);
        waiting.push(cut(rng, &stream).into());
    }
    let mut list = Vec::new();
    while waiting.iter().any(|chunks| !chunks.is_empty()) {
        let port = port(rng);
        let room = room(rng);
        let chunk = match waiting.get_mut(usize::from(port)) {
            Some(chunks) => match chunks.pop_front() {
                Some(chunk) => chunk,
                None if rng.chance(1, 4) => Vec::new(),
                None => continue,
            },
            None => rng.bytes(3),
        };
        list.push(Call { port, chunk, room });
    }
    list
}

/// A list of feeds of two streams, [`offered`] to the board.
pub fn followed(rng: &mut Rng, page: &[u8], pieces: usize) -> Vec<Call> {
    let mut streams = [Vec::new(), Vec::new()];
    for bytes in &mut streams {
        let pieces = rng.below(pieces + 1);
        *bytes = stream(rng, pieces);
    }
    offered(rng, page, streams)
}

/// A list of feeds that offers again what a feed left of its chunk, as a program does that reads two lines. What is
/// left is told by the plain feed from that page; where starting refuses the page, by one from a blank page. What is taken
/// is the same in either profile.
pub fn offered(rng: &mut Rng, page: &[u8], mut waiting: [Vec<u8>; 2]) -> Vec<Call> {
    let mut page = page.to_vec();
    let (number, mut board) = start(Profile::Full, &page);
    if number != 0 {
        page = vec![0xFF; 64];
        board = start(Profile::Full, &page).1;
    }
    let mut list = Vec::new();
    // At the end some feeds more, to report what is still held. Even if each feed were refused, the list ends.
    let mut more = rng.below(6);
    let most = 100 + 8 * (waiting[0].len() + waiting[1].len());
    while list.len() < most {
        if waiting.iter().all(Vec::is_empty) {
            if more == 0 {
                break;
            }
            more -= 1;
        }
        let port = port(rng);
        let room = room(rng);
        let length = chunk_length(rng);
        let chunk = match waiting.get(usize::from(port)) {
            Some(rest) => rest[..length.min(rest.len())].to_vec(),
            None => rng.bytes(3),
        };
        let fed = feed(port, &board, &chunk, &mut vec![0; room], &mut page);
        board = fed.board;
        if let Some(rest) = waiting.get_mut(usize::from(port)) {
            rest.drain(..fed.taken);
        }
        list.push(Call { port, chunk, room });
    }
    list
}

/// A list of feeds of either kind.
pub fn any_calls(rng: &mut Rng, page: &[u8], pieces: usize) -> Vec<Call> {
    if rng.chance(1, 3) {
        calls(rng, pieces)
    } else {
        followed(rng, page, pieces)
    }
}

/// A step of a list: a feed, a silence of a port with this length of room, or a start anew, in this profile, on the page as it
/// then is, as after a loss of power.
#[derive(Clone, Debug, PartialEq, Eq)]
pub enum Step {
    Feed(Call),
    Silence { port: u8, room: usize },
    Restart(Profile),
}

impl Step {
    /// The port and the length of the room of a call; a restart has none.
    pub fn port_and_room(&self) -> Option<(u8, usize)> {
        match *self {
            Step::Feed(Call { port, room, .. }) | Step::Silence { port, room } => Some((port, room)),
            Step::Restart(_) => None,
        }
    }

    /// What a feed offers; a silence and a restart offer nothing.
    pub fn chunk(&self) -> &[u8] {
        match self {
            Step::Feed(call) => &call.chunk,
            Step::Silence { .. } | Step::Restart(_) => &[],
        }
    }

    /// What the plain reading answers on this board, where the step is a call. The room is of the step's length.
    pub fn answer(&self, board: &Board, room: &mut [u8], page: &mut [u8]) -> Option<Fed> {
        match self {
            Step::Feed(call) => Some(feed(call.port, board, &call.chunk, room, page)),
            Step::Silence { port, .. } => Some(silence(*port, board, room, page)),
            Step::Restart(_) => None,
        }
    }

    /// The step with its answer, as [`drained`](crate::drained) reads it.
    pub fn answered(&self, number: u8) -> Answered {
        match *self {
            Step::Feed(Call { port, .. }) => Answered::Feed { port, number },
            Step::Silence { port, .. } => Answered::Silence { port, number },
            Step::Restart(_) => Answered::Restart,
        }
    }
}

impl fmt::Display for Step {
    fn fmt(&self, f: &mut fmt::Formatter<'_>) -> fmt::Result {
        match self {
            Step::Restart(profile) => write!(f, "restart, {profile:?}"),
            Step::Silence { port, room } => write!(f, "silence of port {port}, room {room}"),
            Step::Feed(Call { port, chunk, room }) => {
                write!(f, "feed port {port}, room {room}, chunk ")?;
                chunk.iter().try_for_each(|byte| write!(f, "{byte:02X}"))
            }
        }
    }
}

/// A list of feeds of either kind; one list in three has restarts in it.
pub fn steps(rng: &mut Rng, page: &[u8], pieces: usize) -> Vec<Step> {
    let calls = any_calls(rng, page, pieces);
    with_restarts(rng, calls)
}

/// The feeds as they are, or with some restarts between them.
fn with_restarts(rng: &mut Rng, calls: Vec<Call>) -> Vec<Step> {
    let restarts = rng.chance(1, 3);
    let rarity = calls.len().max(1);
    let mut list = Vec::with_capacity(calls.len() + 4);
    for call in calls {
        if restarts && rng.chance(2, rarity) {
            list.push(Step::Restart(profile(rng)));
        }
        list.push(Step::Feed(call));
    }
    list
}

// Shrinking.

/// What a failing list is made of: it can be dropped, and so can bytes in it.
pub trait Shrinkable: Clone + PartialEq {
    /// The bytes of which some may be dropped.
    fn bytes(&mut self) -> Option<&mut Vec<u8>>;

    /// This one and the next as one, where that makes sense.
    fn joined(&self, next: &Self) -> Option<Self>;
}

impl Shrinkable for Call {
    fn bytes(&mut self) -> Option<&mut Vec<u8>> {
        Some(&mut self.chunk)
    }

    fn joined(&self, next: &Call) -> Option<Call> {
        let chunk = [&self.chunk[..], &next.chunk].concat();
        (self.port == next.port).then_some(Call { port: self.port, chunk, room: next.room })
    }
}

impl Shrinkable for Step {
    fn bytes(&mut self) -> Option<&mut Vec<u8>> {
        match self {
            Step::Feed(call) => call.bytes(),
            Step::Silence { .. } | Step::Restart(_) => None,
        }
    }

    fn joined(&self, next: &Step) -> Option<Step> {
        match (self, next) {
            (Step::Feed(one), Step::Feed(other)) => one.joined(other).map(Step::Feed),
            _ => None,
        }
    }
}

/// A failing list from which no feed and no byte can be dropped without it ceasing to fail, and in which no feed can be
/// joined with the next: first feeds are dropped, many at once and then fewer, then bytes of the chunks, then feeds are
/// joined, and again until nothing helps. A list that does not fail comes back as it is.
pub fn shrink<T: Shrinkable>(list: &[T], fails: impl Fn(&[T]) -> bool) -> Vec<T> {
    let mut list = list.to_vec();
    if !fails(&list) {
        return list;
    }
    loop {
        let before = list.clone();

        list = drop_parts(list, |shorter| fails(shorter));

        for place in 0..list.len() {
            list[place] = drop_bytes(&list, place, &fails);
        }

        list = join_neighbours(list, &fails);

        if list == before {
            return list;
        }
    }
}

/// One member of a failing list, with bytes dropped while the list still fails.
fn drop_bytes<T: Shrinkable>(list: &[T], place: usize, fails: impl Fn(&[T]) -> bool) -> T {
    let Some(bytes) = list[place].clone().bytes().cloned() else {
        return list[place].clone();
    };
    let with = |bytes: &[u8]| {
        let mut other = list[place].clone();
        *other.bytes().expect("a member with bytes") = bytes.to_vec();
        other
    };
    let fewer = drop_parts(bytes, |shorter| {
        let mut other = list.to_vec();
        other[place] = with(shorter);
        fails(&other)
    });
    with(&fewer)
}

/// Joins each member with those after it while the list still fails.
fn join_neighbours<T: Shrinkable>(mut list: Vec<T>, fails: impl Fn(&[T]) -> bool) -> Vec<T> {
    let mut place = 0;
    while place + 1 < list.len() {
        let joined = list[place].joined(&list[place + 1]).map(|member| {
            let mut other = list.clone();
            other.splice(place..place + 2, [member]);
            other
        });
        match joined.filter(|other| fails(other)) {
            Some(shorter) => list = shorter,
            None => place += 1,
        }
    }
    list
}

/// Drops parts of a row from any place, the whole and halves first and single ones last, while the rest still fails.
fn drop_parts<T: Clone>(mut row: Vec<T>, fails: impl Fn(&[T]) -> bool) -> Vec<T> {
    let mut part = row.len();
    while part > 0 {
        let mut at = 0;
        let mut dropped = false;
        while at < row.len() {
            let mut shorter = row.clone();
            shorter.drain(at..row.len().min(at + part));
            if fails(&shorter) {
                row = shorter;
                dropped = true;
            } else {
                at += 1;
            }
        }
        if !dropped || part > 1 {
            part = if part == 1 { 0 } else { part.div_ceil(2).min(part - 1) };
        }
    }
    row
}
