//! The numbers with which a call refuses.

use core::error::Error;
use core::fmt;

/// Why a call refused: the paper's numbers 16 to 28. A refused call writes nothing and changes nothing; only
/// [`Board::start_in_place`](crate::Board::start_in_place) clears the board all the same.
///
/// ```
/// use ketphiroj::{check_message, Refusal};
///
/// let refusal = check_message(&[0xA5, 0xA5]).unwrap_err();
/// assert_eq!(refusal, Refusal::NotWhole);
/// assert_eq!(refusal.number(), 21);
/// assert_eq!(refusal.to_string(), "not one whole message (21)");
/// ```
#[derive(Clone, Copy, Debug, PartialEq, Eq, Hash)]
#[repr(u8)]
pub enum Refusal {
    /// The port is not 0 or 1.
    Port = 16,
    /// The board is unsound: a port holds over 260, or a working value is none that this board works with.
    Unsound = 17,
    /// The room is too small: under 166 bytes for a feed or a silence, otherwise shorter than what is to be written.
    Room = 18,
    /// The page is not 64 bytes.
    PageLength = 19,
    /// The page is neither blank nor sound.
    Page = 20,
    /// Not one whole message: under 6 bytes, no A5 A5, or not L + 6 bytes.
    NotWhole = 21,
    /// The sums are wrong.
    Sums = 22,
    /// Data reader: not type A2. Reply reader: not a reply.
    Kind = 23,
    /// The fields do not fill the payload exactly.
    Fields = 24,
    /// A field 81 or 82 whose size is not 12.
    FieldSize = 25,
    /// The payload is over 255 bytes.
    Payload = 26,
    /// Data reader: no field of that number, counted from 0. Reply reader: no row of that number.
    NoField = 27,
    /// The command to be written is not one that this board accepts.
    Command = 28,
}

impl Refusal {
    /// All of them, in the order of their numbers.
    pub const ALL: [Refusal; 13] = [
        Refusal::Port,
        Refusal::Unsound,
        Refusal::Room,
        Refusal::PageLength,
        Refusal::Page,
        Refusal::NotWhole,
        Refusal::Sums,
        Refusal::Kind,
        Refusal::Fields,
        Refusal::FieldSize,
        Refusal::Payload,
        Refusal::NoField,
        Refusal::Command,
    ];

    /// The paper's number.
    #[must_use]
    pub const fn number(self) -> u8 {
        self as u8
    }

    /// The refusal of a number, if it is one.
    ///
    /// ```
    /// use ketphiroj::Refusal;
    ///
    /// assert_eq!(Refusal::from_number(18), Some(Refusal::Room));
    /// assert_eq!(Refusal::from_number(0), None);
    /// ```
    #[must_use]
    pub fn from_number(number: u8) -> Option<Refusal> {
        let place = number.checked_sub(Refusal::Port.number())?;
        Refusal::ALL.get(usize::from(place)).copied()
    }

    fn text(self) -> &'static str {
        match self {
            Refusal::Port => "port not 0 or 1",
            Refusal::Unsound => "board unsound",
            Refusal::Room => "room too small",
            Refusal::PageLength => "page not 64 bytes",
            Refusal::Page => "page neither blank nor sound",
            Refusal::NotWhole => "not one whole message",
            Refusal::Sums => "sums wrong",
            Refusal::Kind => "not a message of this reader",
            Refusal::Fields => "fields do not fill the payload exactly",
            Refusal::FieldSize => "field 81 or 82 whose size is not 12",
            Refusal::Payload => "payload over 255",
            Refusal::NoField => "no field or row of that number",
            Refusal::Command => "not a command that the board accepts",
        }
    }
}

impl fmt::Display for Refusal {
    fn fmt(&self, f: &mut fmt::Formatter<'_>) -> fmt::Result {
        write!(f, "{} ({})", self.text(), self.number())
    }
}

impl Error for Refusal {}

/// Nothing where the number is 0, else the refusal. The contracts of the library give no other number, so one that is
/// not in the table means that another library was linked.
pub(crate) fn done_or_refused(number: u8) -> Result<(), Refusal> {
    match number {
        0 => Ok(()),
        _ => Err(refusal_of(number)),
    }
}

/// The refusal of a number that is neither 0 nor, for a feed or a silence, 1.
pub(crate) fn refusal_of(number: u8) -> Refusal {
    Refusal::from_number(number).unwrap_or_else(|| panic!("the library answered {number}, which no call gives"))
}
