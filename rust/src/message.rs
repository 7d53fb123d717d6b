//! One whole message, and the writers of commands.

use crate::ffi;
use crate::refusal::{done_or_refused, Refusal};

/// The codes that the board knows.
pub mod code {
    /// The baud rate of the serial port.
    pub const BAUD: u8 = 0x01;
    /// Ping.
    pub const PING: u8 = 0x02;
    /// The accelerometer's range.
    pub const ACCELEROMETER: u8 = 0x07;
    /// The gyroscope's range.
    pub const GYROSCOPE: u8 = 0x08;
}

/// The type of a numbered command and of the reply to it.
pub const NUMBERED: u8 = 0x7C;

/// The functions of a setting.
pub mod function {
    /// Use the value.
    pub const USE: u8 = 1;
    /// Report the working value.
    pub const REPORT: u8 = 2;
    /// Save the working value to the page.
    pub const SAVE: u8 = 3;
    /// Take the page's value.
    pub const LOAD: u8 = 4;
    /// Take the factory value.
    pub const FACTORY: u8 = 5;
}

/// The message's length, or the refusal.
pub(crate) fn length_of(written: ffi::Written) -> Result<usize, Refusal> {
    done_or_refused(written.number)?;
    Ok(written.length)
}

/// Whether this is one whole message with right sums.
///
/// # Errors
///
/// [`Refusal::NotWhole`], then [`Refusal::Sums`].
///
/// # Examples
///
/// ```
/// use ketphiroj::{check_message, Refusal};
///
/// let mut ping = [0xA5, 0xA5, 0x01, 0x02, 0x02, 0x00, 0x4F, 0x25];
/// assert_eq!(check_message(&ping), Ok(()));
/// ping[7] = 0x24;
/// assert_eq!(check_message(&ping), Err(Refusal::Sums));
/// assert_eq!(check_message(&ping[..7]), Err(Refusal::NotWhole));
/// ```
pub fn check_message(message: &[u8]) -> Result<(), Refusal> {
    done_or_refused(ffi::check_message(message))
}

/// Writes the message of this type and payload to the room's front, and gives its length.
///
/// Any type is written. A board does not find a message of type A5: to it the first byte is a stray one.
///
/// # Errors
///
/// [`Refusal::Payload`] where that is over 255 bytes, then [`Refusal::Room`] where the message does not fit.
///
/// # Examples
///
/// ```
/// use ketphiroj::{write_message, Refusal};
///
/// let mut room = [0; 8];
/// assert_eq!(write_message(0x01, &[0x02, 0x00], &mut room), Ok(8));
/// assert_eq!(room, [0xA5, 0xA5, 0x01, 0x02, 0x02, 0x00, 0x4F, 0x25]);
/// assert_eq!(write_message(0x01, &[0; 3], &mut room), Err(Refusal::Room));
/// assert_eq!(write_message(0x01, &[0; 256], &mut room), Err(Refusal::Payload));
/// ```
pub fn write_message(kind: u8, payload: &[u8], room: &mut [u8]) -> Result<usize, Refusal> {
    length_of(ffi::write_message(kind, payload, room))
}

/// Writes the command of this code and function to the room's front, and gives its length: function 1 with the value,
/// the functions 2 to 5 without, Ping without both. What is not written is not looked at. It is at most 13 bytes.
///
/// The writer sees neither the board's page nor its profile: functions 1, 3, 4 and 5 may still be answered with
/// [`ReplyError::Number`](crate::ReplyError::Number) or [`NotAllowed`](crate::ReplyError::NotAllowed), and function 4 with
/// [`Unsupported`](crate::ReplyError::Unsupported).
///
/// # Errors
///
/// [`Refusal::Command`], also for the gyroscope's ranges 6 and 7, which this board does not have; then [`Refusal::Room`] where the
/// message does not fit.
///
/// # Examples
///
/// ```
/// use ketphiroj::{code, function, write_command, Refusal};
///
/// let mut room = [0; 16];
/// assert_eq!(write_command(code::ACCELEROMETER, function::USE, 2, &mut room), Ok(10));
/// assert_eq!(room[..10], [0xA5, 0xA5, 0x02, 0x04, 0x07, 0x02, 0x01, 0x02, 0x5C, 0xF1]);
/// assert_eq!(write_command(code::ACCELEROMETER, function::USE, 5, &mut room), Err(Refusal::Command));
/// assert_eq!(write_command(code::GYROSCOPE, function::USE, 5, &mut room), Ok(10));
/// assert_eq!(write_command(code::GYROSCOPE, function::USE, 6, &mut room), Err(Refusal::Command));
/// ```
pub fn write_command(code: u8, function: u8, value: u32, room: &mut [u8]) -> Result<usize, Refusal> {
    length_of(ffi::write_command(code, function, value, room))
}

/// Writes the numbered command of this code and function to the room's front, and gives its length: a message of type
/// [`NUMBERED`] with the number, then the type and the field that [`write_command`] writes. A board accepts the number
/// where it is larger than the one that its page keeps, or where the page keeps none, and then keeps it; whatever comes
/// of the command, the number cannot be used again. Port 1 of a read-only board accepts none. It is at most 18 bytes. For
/// several fields see [`append_field`].
///
/// # Errors
///
/// [`Refusal::Command`], then [`Refusal::Room`], as [`write_command`].
///
/// # Examples
///
/// ```
/// use ketphiroj::{code, function, write_numbered, Refusal};
///
/// let mut room = [0; 15];
/// assert_eq!(write_numbered(1, code::ACCELEROMETER, function::USE, 3, &mut room), Ok(15));
/// assert_eq!(room, [0xA5, 0xA5, 0x7C, 9, 0, 0, 0, 1, 0x02, 0x07, 2, 1, 3, 0xDF, 0x02]);
/// assert_eq!(write_numbered(2, code::ACCELEROMETER, function::USE, 5, &mut room), Err(Refusal::Command));
/// assert_eq!(write_numbered(2, code::BAUD, function::USE, 9600, &mut room), Err(Refusal::Room));
/// ```
pub fn write_numbered(number: u32, code: u8, function: u8, value: u32, room: &mut [u8]) -> Result<usize, Refusal> {
    length_of(ffi::write_numbered(number, code, function, value, room))
}

/// Writes one field of a command of this type behind the first `length` bytes of the room, a payload that is being
/// built, and gives the payload's new length: function 1 with the value, the functions 2 to 5 without, Ping without
/// both. What is not written is not looked at. Type 01 has Ping, type 02 the settings. [`write_message`] makes a
/// message of the payload, with the same type; a board takes up to 16 fields.
///
/// A numbered command of several fields is built the same way: the four bytes of the number and the type come first, the
/// first field is written behind 5 bytes, and the message is of type [`NUMBERED`].
///
/// # Errors
///
/// [`Refusal::Command`] where a board would not accept a message of this type with this field, then [`Refusal::Room`] where the
/// field does not fit behind the first `length` bytes.
///
/// # Examples
///
/// ```
/// use ketphiroj::{append_field, code, function, write_message, Refusal, NUMBERED};
///
/// let mut payload = [0; 255];
/// let mut length = 0;
/// for (code, value) in [(code::BAUD, 921600), (code::ACCELEROMETER, 4), (code::GYROSCOPE, 5)] {
///     length = append_field(0x02, code, function::USE, value, length, &mut payload)?;
/// }
/// assert_eq!(payload[..length], [1, 5, 1, 0x00, 0x0E, 0x10, 0x00, 7, 2, 1, 4, 8, 2, 1, 5]);
/// let mut room = [0; 32];
/// assert_eq!(write_message(0x02, &payload[..length], &mut room), Ok(21));
///
/// // The same with the number 7.
/// payload[..5].copy_from_slice(&[0, 0, 0, 7, 0x02]);
/// let mut length = 5;
/// for (code, value) in [(code::BAUD, 921600), (code::ACCELEROMETER, 4), (code::GYROSCOPE, 5)] {
///     length = append_field(0x02, code, function::USE, value, length, &mut payload)?;
/// }
/// assert_eq!(write_message(NUMBERED, &payload[..length], &mut room), Ok(26));
///
/// assert_eq!(append_field(0x02, code::GYROSCOPE, function::USE, 6, 0, &mut []), Err(Refusal::Command));
/// assert_eq!(append_field(0x02, code::GYROSCOPE, function::USE, 5, 0, &mut []), Err(Refusal::Room));
/// # Ok::<(), Refusal>(())
/// ```
pub fn append_field(
    kind: u8,
    code: u8,
    function: u8,
    value: u32,
    length: usize,
    room: &mut [u8],
) -> Result<usize, Refusal> {
    length_of(ffi::append_field(kind, code, function, value, length, room))
}
