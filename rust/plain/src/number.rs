//! Numbers of the calls (01-069 to 01-083).

/// "done; for a feed, a message was reported and its reply written"
pub const DONE: u8 = 0;
/// "feed: chunk used up, nothing more to report, nothing written"; 02-06.3: a silence "when nothing is held (1)"
pub const USED_UP: u8 = 1;
/// "port not 0 or 1"
pub const PORT: u8 = 16;
/// "board unsound: a port holds over 260, or a working value is not allowed"; since 02-05.4 the gyroscope's 06 and 07 too
pub const UNSOUND: u8 = 17;
/// "room too small: feed under 16 bytes, otherwise under the message's length"; since 02-02.5 a feed under 166 bytes, and so a silence
pub const ROOM: u8 = 18;
/// "page not 64 bytes"
pub const PAGE_LENGTH: u8 = 19;
/// "page neither blank nor sound"
pub const PAGE: u8 = 20;
/// "not one whole message: under 6 bytes, no A5 A5, or not L + 6 bytes"
pub const NOT_WHOLE: u8 = 21;
/// "sums wrong"
pub const SUMS: u8 = 22;
/// "data reader: not type A2; reply reader: not a reply as above"
pub const NOT_THIS_KIND: u8 = 23;
/// "fields do not fill the payload exactly"
pub const FIELDS: u8 = 24;
/// "field 81 or 82 whose size is not 12"
pub const FIELD_SIZE: u8 = 25;
/// "payload over 255"
pub const PAYLOAD: u8 = 26;
/// "no field of that number, counted from 0"; since 02-02.7 no row of that number too
pub const NO_FIELD: u8 = 27;
/// "command to be written is not one the board accepts"
pub const COMMAND: u8 = 28;

/// Whether a feed or a silence with this answer was accepted.
pub fn accepted(number: u8) -> bool {
    number == DONE || number == USED_UP
}
