//! The replies of the floor programs: rows in the room, and the sums, in closed form where there is one row.

use crate::sums;
use std::hint::select_unpredictable as pick;

/// The longest reply.
pub const LONGEST: usize = 166;

/// A room of at least the longest reply; only the front is written.
pub type Room = [u8; LONGEST];

/// How a field was answered.
#[derive(Clone, Copy)]
pub struct Row {
    pub echo: u8,
    pub error: u8,
    /// Whether the working value is reported, and that value.
    pub reports: bool,
    pub value: u32,
}

impl Row {
    pub fn without_value(echo: u8, error: u8) -> Row {
        Row { echo, error, reports: false, value: 0 }
    }
}

/// F2 of a reply of one row without a value but for its type, echo and error.
const SHORT_F2: u8 = ((15 * 0xA5 + 5 * 4 + 4 * 0x80 + 3 * 2) % 256) as u8;
const SHORT_F1: u8 = ((2 * 0xA5 + 4 + 0x80 + 2) % 256) as u8;

/// The reply of one row without a value.
#[inline(always)]
pub fn write_short(room: &mut Room, kind: u8, echo: u8, error: u8) {
    let f1 = SHORT_F1.wrapping_add(kind).wrapping_add(echo).wrapping_add(error);
    let f2 = SHORT_F2.wrapping_add(kind.wrapping_mul(6)).wrapping_add(echo.wrapping_mul(2)).wrapping_add(error);
    room[..8].copy_from_slice(&[0xA5, 0xA5, kind, 4, 0x80, 2, echo, error]);
    room[8..10].copy_from_slice(&[f1, f2]);
}

/// A reply of one row: without a value, with a range, with a rate.
struct Shape {
    /// The bytes of the payload.
    length: u8,
    /// The sums but for the type, the echo, the error and the value.
    sums: (u8, u8),
    /// How often the type counts in F2, and the echo in F1 and F2.
    kind: u8,
    echo: (u8, u8),
    /// What the second field begins with, which echoes the code: its size, and whether it is there.
    size: u64,
    there: u64,
    /// Which bits of a value are written.
    value: u32,
    /// By how many bits a value is shorter than four bytes.
    shorter: u32,
    /// Where the sums stand behind the first row, in bits, and which bits there are the reply's own.
    end: u32,
    own: u64,
}

const SHAPES: [Shape; 4] = {
    let short = Shape {
        length: 4,
        sums: (SHORT_F1, SHORT_F2),
        kind: 6,
        echo: (1, 2),
        size: 0,
        there: 0,
        value: 0,
        shorter: 0,
        end: 0,
        own: 0xFFFF,
    };
    [short, with_value(1), with_value(4), with_value(4)]
};

/// With a value of so many bytes: each of those before the second field counts as often more in F2 as that has bytes.
const fn with_value(size: usize) -> Shape {
    let more = size + 2;
    let f1 = 2 * 0xA5 + (4 + more) + 0x80 + 2 + size;
    let f2 = (2 * more + 15) * 0xA5 + (more + 5) * (4 + more) + (more + 4) * 0x80 + (more + 3) * 2 + (more - 1) * size;
    Shape {
        length: 4 + more as u8,
        sums: (f1 as u8, f2 as u8),
        kind: more as u8 + 6,
        echo: (2, 2 * more as u8 + 2),
        size: (size as u64) << 8,
        there: 0xFF,
        value: u32::MAX,
        shorter: 32 - 8 * size as u32,
        end: 8 * more as u32,
        own: u64::MAX >> (64 - 8 * (more + 2)),
    }
}

/// The reply of one row, without a branch: what stands behind it in the room is written as it was.
#[inline(always)]
pub fn write_one(room: &mut Room, kind: u8, row: Row) {
    let Row { echo, error, reports, value } = row;
    let shape = &SHAPES[usize::from(reports) + usize::from(reports & (echo == 1))];
    let value = value & shape.value;
    // The last byte of a value counts once in F2, and a range has no other.
    let [v0, v1, v2, v3] = value.to_le_bytes();
    let f1 = shape.sums.0.wrapping_add(kind).wrapping_add(echo.wrapping_mul(shape.echo.0)).wrapping_add(error);
    let f1 = f1.wrapping_add(v0).wrapping_add(v1).wrapping_add(v2).wrapping_add(v3);
    let f2 = shape.sums.1.wrapping_add(kind.wrapping_mul(shape.kind)).wrapping_add(echo.wrapping_mul(shape.echo.1));
    let weighted =
        v0.wrapping_add(v1.wrapping_mul(2)).wrapping_add(v2.wrapping_mul(3)).wrapping_add(v3.wrapping_mul(4));
    let f2 = f2.wrapping_add(error).wrapping_add(weighted);

    let sums = u64::from(f1) | u64::from(f2) << 8;
    let of_value = u64::from(value.swap_bytes() >> shape.shorter) << 16;
    let second = (u64::from(echo) & shape.there) | shape.size | of_value | sums << shape.end;
    let old = u64::from_le_bytes(room[8..16].try_into().expect("8 bytes"));
    room[..8].copy_from_slice(&[0xA5, 0xA5, kind, shape.length, 0x80, 2, echo, error]);
    room[8..16].copy_from_slice(&(second | (old & !shape.own)).to_le_bytes());
}

/// The rows of a reply of several: with place behind them for a row that is written longer than it is.
pub type Rows = [u8; 168];

/// A row behind the first `end` bytes, which are 150 at most, and how many those are then. Without a branch: what is written behind a
/// shorter row is the next one's place.
#[inline(always)]
pub fn append(rows: &mut Rows, end: usize, row: Row) -> usize {
    let Row { echo, error, reports, value } = row;
    let rate = reports & (echo == 1);
    let ranged = u64::from(echo) | 1 << 8 | u64::from(value as u8) << 16;
    let rated = u64::from(echo) | 4 << 8 | u64::from(value.swap_bytes()) << 16;
    let second = pick(rate, rated, ranged);
    let places: &mut [u8; 12] = rows[end..].first_chunk_mut().expect("place for a row");
    places[..4].copy_from_slice(&[0x80, 2, echo, error]);
    places[4..].copy_from_slice(&second.to_le_bytes());
    end + pick(rate, 10, pick(reports, 7, 4))
}

/// The reply of these rows, of so many bytes.
#[inline(always)]
pub fn write_rows(room: &mut Room, kind: u8, rows: &Rows, length: usize) {
    let end = 4 + length;
    room[..4].copy_from_slice(&[0xA5, 0xA5, kind, length as u8]);
    room[4..end].copy_from_slice(&rows[..length]);
    let (f1, f2) = sums::and_behind(sums::of_front(&[0xA5, 0xA5, kind, length as u8], 4), rows, length);
    room[end..end + 2].copy_from_slice(&[f1, f2]);
}
