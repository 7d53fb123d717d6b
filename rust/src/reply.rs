//! The reply reader, and the errors of a reply.

use crate::ffi;
use crate::refusal::{done_or_refused, Refusal};
use core::error::Error;
use core::fmt;

/// Why a board did not do what it was asked: the error of a reply's row, the paper's numbers 1 to 7. Where it did, there is none
/// (number 0).
///
/// ```
/// use ketphiroj::{read_reply, write_message, Refusal, ReplyError};
///
/// // The answer to a command that was sent again.
/// let mut room = [0; 16];
/// let length = write_message(0x7C, &[0x80, 2, 7, 5], &mut room)?;
/// let error = read_reply(&room[..length], 0)?.error;
/// assert_eq!(error, Some(ReplyError::Number));
/// assert_eq!(ReplyError::Number.number(), 5);
/// assert_eq!(ReplyError::Number.to_string(), "number not fresh, or missing (5)");
/// # Ok::<(), Refusal>(())
/// ```
#[derive(Clone, Copy, Debug, PartialEq, Eq, Hash)]
#[repr(u8)]
pub enum ReplyError {
    /// The sums are wrong: the message was damaged on the line, or noise looked like one.
    Checksum = 1,
    /// A type that the board does not know.
    MessageType = 2,
    /// A code that the type does not have, or no field.
    MessageCode = 3,
    /// A wrong size, function or value; fields that do not fill the payload, or more than 16; or a numbered command that is too
    /// short.
    Parameter = 4,
    /// The number is not fresh, as that of a command that is sent again; or there is none where one is needed, on port 0 once the
    /// page keeps a number.
    Number = 5,
    /// Not on this board: the gyroscope's range 6 or 7, sent with function 1 or kept by the page under function 4.
    Unsupported = 6,
    /// Not allowed on this port, which is port 1 of a read-only board ([`Profile::ReadOnly`](crate::Profile::ReadOnly)).
    NotAllowed = 7,
}

impl ReplyError {
    /// All of them, in the order of their numbers.
    pub const ALL: [ReplyError; 7] = [
        ReplyError::Checksum,
        ReplyError::MessageType,
        ReplyError::MessageCode,
        ReplyError::Parameter,
        ReplyError::Number,
        ReplyError::Unsupported,
        ReplyError::NotAllowed,
    ];

    /// The paper's number.
    #[must_use]
    pub const fn number(self) -> u8 {
        self as u8
    }

    /// The error of a number, if it is one: 0 is none.
    ///
    /// ```
    /// use ketphiroj::ReplyError;
    ///
    /// assert_eq!(ReplyError::from_number(1), Some(ReplyError::Checksum));
    /// assert_eq!(ReplyError::from_number(0), None);
    /// assert_eq!(ReplyError::from_number(8), None);
    /// ```
    #[must_use]
    pub const fn from_number(number: u8) -> Option<ReplyError> {
        match number {
            1..=7 => Some(ReplyError::ALL[number as usize - 1]),
            _ => None,
        }
    }

    fn text(self) -> &'static str {
        match self {
            ReplyError::Checksum => "sums wrong",
            ReplyError::MessageType => "no such type",
            ReplyError::MessageCode => "no such code, or no field",
            ReplyError::Parameter => "wrong size, function or value, or fields that do not fit",
            ReplyError::Number => "number not fresh, or missing",
            ReplyError::Unsupported => "not on this board",
            ReplyError::NotAllowed => "not allowed on this port",
        }
    }
}

impl fmt::Display for ReplyError {
    fn fmt(&self, f: &mut fmt::Formatter<'_>) -> fmt::Result {
        write!(f, "{} ({})", self.text(), self.number())
    }
}

impl Error for ReplyError {}

/// The error of a number that the library answered, none for 0. Its contracts give no number above 7, so one means that another
/// library was linked.
#[inline]
pub(crate) fn error_of(number: u8) -> Option<ReplyError> {
    let error = ReplyError::from_number(number);
    assert!(error.is_some() || number == 0, "the library answered error {number}, which no reply has");
    error
}

/// What one row of a reply says, which is the answer to one field of a command.
#[derive(Clone, Copy, Debug, PartialEq, Eq)]
#[must_use = "a row of a reply may have an error"]
pub struct Reply {
    /// The type, which is that of the command; 7C for a numbered one.
    pub kind: u8,
    /// The field's code; in the one row of a command whose fields were not reached, its first payload byte, or 0 if it
    /// had none. In type 7C that is the first byte behind the number and the type inside, but where the sums are wrong.
    pub echo: u8,
    /// The error; none where the field was done.
    pub error: Option<ReplyError>,
    /// The working value, where one was reported; its code is the echo. Older boards report the gyroscope's ranges 6 and 7,
    /// too.
    pub value: Option<u32>,
}

impl Reply {
    /// The value that was reported, if any, or the error.
    ///
    /// # Errors
    ///
    /// That of the row.
    ///
    /// # Examples
    ///
    /// ```
    /// use ketphiroj::{code, Reply, ReplyError};
    ///
    /// let reported = Reply { kind: 0x02, echo: code::BAUD, error: None, value: Some(115200) };
    /// assert_eq!(reported.result(), Ok(Some(115200)));
    /// let refused = Reply { error: Some(ReplyError::Parameter), value: None, ..reported };
    /// assert_eq!(refused.result(), Err(ReplyError::Parameter));
    /// ```
    pub const fn result(&self) -> Result<Option<u32>, ReplyError> {
        match self.error {
            None => Ok(self.value),
            Some(error) => Err(error),
        }
    }
}

/// Reads row `row`, counted from 0, of a reply that is one whole message of 1 to 16 rows: several only in types 01, 02
/// and 7C, values only in 02 and 7C.
///
/// # Errors
///
/// [`Refusal::NotWhole`], [`Refusal::Sums`], [`Refusal::Kind`] where it is no reply, and [`Refusal::NoField`] where it has no such
/// row, the first that applies.
///
/// # Examples
///
/// ```
/// use ketphiroj::{code, read_reply, Refusal, Reply};
///
/// let message = [0xA5, 0xA5, 0x02, 0x07, 0x80, 0x02, 0x08, 0x00, 0x08, 0x01, 0x03, 0xE9, 0xA4];
/// let reply = read_reply(&message, 0)?;
/// assert_eq!(reply, Reply { kind: 0x02, echo: code::GYROSCOPE, error: None, value: Some(3) });
/// assert_eq!(read_reply(&message, 1), Err(Refusal::NoField));
///
/// // From an older board.
/// let message = [0xA5, 0xA5, 0x02, 0x07, 0x80, 0x02, 0x08, 0x00, 0x08, 0x01, 0x07, 0xED, 0xA8];
/// assert_eq!(read_reply(&message, 0)?.value, Some(7));
/// # Ok::<(), Refusal>(())
/// ```
pub fn read_reply(message: &[u8], row: usize) -> Result<Reply, Refusal> {
    let flat = ffi::read_reply(message, row);
    done_or_refused(flat.number)?;
    let value = flat.has_value.then_some(flat.value);
    Ok(Reply { kind: flat.kind, echo: flat.echo, error: error_of(flat.error), value })
}

/// The rows of a reply in their order, at least one.
///
/// # Errors
///
/// As [`read_reply`] for row 0: [`Refusal::NotWhole`], [`Refusal::Sums`] and [`Refusal::Kind`].
///
/// # Examples
///
/// ```
/// use ketphiroj::{read_rows, write_message, Refusal, ReplyError};
///
/// // To a Ping, an unknown code and another Ping.
/// let mut room = [0; 32];
/// let length = write_message(0x01, &[0x80, 2, 2, 0, 0x80, 2, 9, 3, 0x80, 2, 2, 0], &mut room)?;
/// let errors: Vec<Option<ReplyError>> = read_rows(&room[..length])?.map(|row| row.error).collect();
/// assert_eq!(errors, [None, Some(ReplyError::MessageCode), None]);
/// # Ok::<(), Refusal>(())
/// ```
pub fn read_rows(message: &[u8]) -> Result<impl Iterator<Item = Reply> + '_, Refusal> {
    let first = read_reply(message, 0)?;
    let others = (1..).map_while(|row| read_reply(message, row).ok());
    Ok(core::iter::once(first).chain(others))
}
