//! The data message.

use crate::ffi;
use crate::message::length_of;
use crate::refusal::{done_or_refused, Refusal};
use core::ops::Range;

/// The three axes X, Y, Z of an acceleration or a rate, as the bits of three IEEE 754 single floats.
///
/// Bits are kept and not floats, so that two NaNs can be told apart and axes can be compared.
///
/// ```
/// use ketphiroj::Axes;
///
/// let axes = Axes::from([0.0, -1.5, f32::INFINITY]);
/// assert_eq!(axes.bits(), [0x0000_0000, 0xBFC0_0000, 0x7F80_0000]);
/// assert_eq!(axes.floats()[1], -1.5);
/// assert_eq!(Axes::from([0x7FA0_0001, 0, 0]), Axes::from([0x7FA0_0001, 0, 0]));
/// ```
#[derive(Clone, Copy, Debug, PartialEq, Eq, Hash)]
pub struct Axes {
    bits: [u32; 3],
}

impl Axes {
    /// The bits of X, Y and Z.
    #[must_use]
    pub fn bits(self) -> [u32; 3] {
        self.bits
    }

    /// X, Y and Z.
    #[must_use]
    pub fn floats(self) -> [f32; 3] {
        self.bits.map(f32::from_bits)
    }
}

impl From<[u32; 3]> for Axes {
    fn from(bits: [u32; 3]) -> Axes {
        Axes { bits }
    }
}

impl From<[f32; 3]> for Axes {
    fn from(floats: [f32; 3]) -> Axes {
        Axes { bits: floats.map(f32::to_bits) }
    }
}

/// What a field of a data message is.
#[derive(Clone, Copy, Debug, PartialEq, Eq)]
#[must_use]
pub enum Field {
    /// Field 81, in g.
    Acceleration(Axes),
    /// Field 82, in degrees per second.
    Rate(Axes),
    /// Another field; [`field_data`] has its data, and [`field_range`] their place and size.
    Unknown {
        /// Its code.
        code: u8,
        /// The index in the message of its first data byte.
        place: usize,
    },
}

const ACCELERATION: u8 = 0x81;
const RATE: u8 = 0x82;

/// Field `k` of a data message, counted from 0.
///
/// # Errors
///
/// [`Refusal::NotWhole`], [`Refusal::Sums`], [`Refusal::Kind`] where it is not of type A2, [`Refusal::Fields`],
/// [`Refusal::FieldSize`] and [`Refusal::NoField`], the first that applies.
///
/// # Examples
///
/// ```
/// use ketphiroj::{read_field, write_data, Axes, Field, Refusal};
///
/// let mut room = [0; 34];
/// write_data([0.0, 0.0, 1.0], [90.0, 0.0, 0.0], &mut room)?;
/// assert_eq!(read_field(&room, 0)?, Field::Acceleration(Axes::from([0.0, 0.0, 1.0])));
/// assert_eq!(read_field(&room, 1)?, Field::Rate(Axes::from([90.0, 0.0, 0.0])));
/// assert_eq!(read_field(&room, 2), Err(Refusal::NoField));
/// # Ok::<(), Refusal>(())
/// ```
pub fn read_field(message: &[u8], k: usize) -> Result<Field, Refusal> {
    let flat = ffi::read_field(message, k);
    done_or_refused(flat.number)?;
    let axes = Axes::from([flat.x, flat.y, flat.z]);
    Ok(match flat.code {
        ACCELERATION => Field::Acceleration(axes),
        RATE => Field::Rate(axes),
        code => Field::Unknown { code, place: flat.place },
    })
}

/// Where the data bytes of field `k` stand in the message, of whichever kind the field is: 12 bytes of an acceleration and a rate, 0
/// to 253 of any other. They are always inside the message; that is proved of the library.
///
/// # Errors
///
/// As [`read_field`].
///
/// # Examples
///
/// ```
/// use ketphiroj::{field_range, write_data, write_message, Refusal};
///
/// let mut room = [0; 34];
/// write_data([0.0, 0.0, 1.0], [90.0, 0.0, 0.0], &mut room)?;
/// assert_eq!(field_range(&room, 0), Ok(6..18));
/// assert_eq!(field_range(&room, 1), Ok(20..32));
/// assert_eq!(field_range(&room, 2), Err(Refusal::NoField));
///
/// // A field without data has its place, too.
/// let length = write_message(0xA2, &[0x10, 0x00, 0x11, 0x02, 0xAB, 0xCD], &mut room)?;
/// assert_eq!(field_range(&room[..length], 0), Ok(6..6));
/// assert_eq!(field_range(&room[..length], 1), Ok(8..10));
/// # Ok::<(), Refusal>(())
/// ```
pub fn field_range(message: &[u8], k: usize) -> Result<Range<usize>, Refusal> {
    let flat = ffi::read_field(message, k);
    done_or_refused(flat.number)?;
    Ok(flat.place..flat.place + flat.size)
}

/// The data bytes of field `k`, as that part of the message itself.
///
/// # Errors
///
/// As [`read_field`].
///
/// # Panics
///
/// If the library's place and size were not inside the message, which its contract excludes.
///
/// # Examples
///
/// ```
/// use ketphiroj::{field_data, write_message, Refusal};
///
/// let mut room = [0; 16];
/// let length = write_message(0xA2, &[0x10, 0x00, 0x11, 0x02, 0xAB, 0xCD], &mut room)?;
/// let message = &room[..length];
/// assert_eq!(field_data(message, 0)?, []);
/// assert_eq!(field_data(message, 1)?, [0xAB, 0xCD]);
/// assert!(std::ptr::eq(field_data(message, 1)?, &message[8..10]));
/// # Ok::<(), Refusal>(())
/// ```
pub fn field_data(message: &[u8], k: usize) -> Result<&[u8], Refusal> {
    Ok(&message[field_range(message, k)?])
}

/// Writes the data message of an acceleration in g and a rate in degrees per second to the room's front, and gives its
/// length, which is 34.
///
/// # Errors
///
/// [`Refusal::Room`] where the room is under 34 bytes.
pub fn write_data(acceleration: [f32; 3], rate: [f32; 3], room: &mut [u8]) -> Result<usize, Refusal> {
    write_data_bits(Axes::from(acceleration).bits, Axes::from(rate).bits, room)
}

/// As [`write_data`], with the axes as bits: all 2^32 patterns are written as they are.
///
/// # Errors
///
/// [`Refusal::Room`] where the room is under 34 bytes.
///
/// # Examples
///
/// ```
/// use ketphiroj::{field_data, write_data_bits, Refusal};
///
/// let mut room = [0; 34];
/// assert_eq!(write_data_bits([0x7FA0_0001, 0, 0], [0; 3], &mut room), Ok(34));
/// assert_eq!(field_data(&room, 0)?[..4], [0x7F, 0xA0, 0x00, 0x01]);
/// assert_eq!(write_data_bits([0; 3], [0; 3], &mut room[..33]), Err(Refusal::Room));
/// # Ok::<(), Refusal>(())
/// ```
pub fn write_data_bits(acceleration: [u32; 3], rate: [u32; 3], room: &mut [u8]) -> Result<usize, Refusal> {
    length_of(ffi::write_data(acceleration, rate, room))
}
