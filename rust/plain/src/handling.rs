//! Handling one message (01-026 to 01-045), which may have several fields (02-02.2 to 02-02.4, 02-02.8) and a number
//! (02-03.1 to 02-03.8, 02-03.11), and values that this board no longer takes (02-05.1 to 02-05.7); and what port 1 may not
//! do on a read-only board (02-12.2, 02-12.7).

use crate::message::{bytes_of, fields_of, kind_of, message, number_of, payload_of, sums_right, Part};
use crate::page::{Values, LAST_NUMBER};

/// What a board is started in. 02-12.2: "A board started in this profile lets port 1 use Ping and function 2 only."
#[derive(Clone, Copy, Debug, PartialEq, Eq)]
pub enum Profile {
    Full,
    ReadOnly,
}

impl Profile {
    pub const ALL: [Profile; 2] = [Profile::Full, Profile::ReadOnly];

    /// Whether a port may use Ping and function 2 only.
    pub fn restricts(self, port: u8) -> bool {
        self == Profile::ReadOnly && port == 1
    }
}

/// The working values.
#[derive(Clone, Copy, Debug, PartialEq, Eq)]
pub struct Settings {
    pub baud: u32,
    pub accelerometer: u8,
    pub gyroscope: u8,
}

/// 01-004: "Ping (0x0102), UART baud rate (0x0201), accelerometer range (0x0207), gyroscope range (0x0208)"
pub const PING: u8 = 0x02;
pub const BAUD: u8 = 0x01;
pub const ACCELEROMETER: u8 = 0x07;
pub const GYROSCOPE: u8 = 0x08;

/// The codes of a type, from the same sentence; other types have none.
pub fn codes_of(kind: u8) -> &'static [u8] {
    match kind {
        0x01 => &[PING],
        0x02 => &[BAUD, ACCELEROMETER, GYROSCOPE],
        _ => &[],
    }
}

/// 01-041: "Factory: 115200, 02, 03."
pub const FACTORY: Settings = Settings { baud: 115200, accelerometer: 0x02, gyroscope: 0x03 };

/// 01-040: "baud, four bytes [..]; accelerometer range, one byte [..]; gyroscope range, one byte". None for other
/// codes.
pub fn value_size(code: u8) -> Option<usize> {
    match code {
        BAUD => Some(4),
        ACCELEROMETER => Some(1),
        GYROSCOPE => Some(1),
        _ => None,
    }
}

/// 01-040: "Values: baud, four bytes, one of 9600, 19200, 115200, 230400, 460800, 921600; accelerometer range, one
/// byte, 01 to 04 on this board (02 is ±4 g in 003); gyroscope range, one byte, 01 to 07." There is none under another
/// code.
fn listed(code: u8, value: u32) -> bool {
    match code {
        BAUD => [9600, 19200, 115200, 230400, 460800, 921600].contains(&value),
        ACCELEROMETER => (0x01..=0x04).contains(&value),
        GYROSCOPE => (0x01..=0x07).contains(&value),
        _ => false,
    }
}

/// Whether this board works with the value: what it may be set to, and what the command writer writes.
///
/// 02-05.1: "our new sensor has codes 01 to 05." 02-05.2: "Codes 06 and 07 are no longer taken."
pub fn usable(code: u8, value: u32) -> bool {
    match code {
        GYROSCOPE => (0x01..=0x05).contains(&value),
        _ => listed(code, value),
    }
}

/// Whether a sound page may hold the value. 02-05.3: "Old pages that hold them stay sound".
pub fn storable(code: u8, value: u32) -> bool {
    listed(code, value)
}

/// Whether the reply reader takes the value. 02-05.6: "The reply reader still takes them, from older boards."
pub fn readable(code: u8, value: u32) -> bool {
    listed(code, value)
}

/// 02-05.7: "error 6, not on this board, for 06 or 07 [..]; any other bad value is still 4."
fn not_on_this_board(code: u8, value: u32) -> bool {
    code == GYROSCOPE && (value == 0x06 || value == 0x07)
}

/// What is taken from a page with these values. 01-056: "the body from the page if it has the entry, else from the
/// factory page". Nothing where the page holds a value that this board no longer takes (02-05.3).
pub fn loaded(code: u8, values: &Values) -> Option<u32> {
    Some(values.value(code).unwrap_or(FACTORY.value(code))).filter(|&value| usable(code, value))
}

impl Settings {
    /// Whether this board works with each of these values. 02-05.4: "A board record holding them is unsound".
    pub fn usable(&self) -> bool {
        [BAUD, ACCELEROMETER, GYROSCOPE].iter().all(|&code| usable(code, self.value(code)))
    }

    /// The value under code 01, 07 or 08.
    pub fn value(&self, code: u8) -> u32 {
        match code {
            BAUD => self.baud,
            ACCELEROMETER => u32::from(self.accelerometer),
            GYROSCOPE => u32::from(self.gyroscope),
            _ => panic!("no setting has code {code:02X}"),
        }
    }

    /// These settings with another value under code 01, 07 or 08.
    pub fn with(mut self, code: u8, value: u32) -> Settings {
        match code {
            BAUD => self.baud = value,
            ACCELEROMETER => self.accelerometer = u8::try_from(value).expect("a range is one byte"),
            GYROSCOPE => self.gyroscope = u8::try_from(value).expect("a range is one byte"),
            _ => panic!("no setting has code {code:02X}"),
        }
        self
    }
}

/// 02-02.2: "A good message of type 01 or 02 may carry 1 to 16 fields."
pub const MOST_FIELDS: usize = 16;

/// 02-03.1: "The controller sends type 7C: a four-byte number, then a command's type and its fields."
pub const NUMBERED: u8 = 0x7C;

/// The fields of a command of this type and payload, or the error of one whose fields are not reached. The sums of its
/// message are right.
///
/// 01-026: "Errors, first that applies".
fn fields_or_error(kind: u8, payload: &[u8]) -> Result<Vec<Part<'_>>, u8> {
    // "2 | type neither 01 nor 02"
    if kind != 0x01 && kind != 0x02 {
        return Err(2);
    }

    // "3 | L = 0"
    if payload.is_empty() {
        return Err(3);
    }

    // 02-02.8: "a payload that fields do not fill exactly, or more than 16 fields, gets one field with error 4, tested
    // after L = 0 and before any code; there L = 1 and unknown codes become 4."
    match fields_of(payload) {
        Some(fields) if fields.len() <= MOST_FIELDS => Ok(fields),
        _ => Err(4),
    }
}

/// The error of functions 1, 3, 4 and 5 in a message without a number, where it may not use them.
fn refused_functions(profile: Profile, port: u8, values: &Values) -> Option<u8> {
    // 02-12.7: "error 7, not allowed on this port, for functions 1, 3, 4 and 5".
    if profile.restricts(port) {
        return Some(7);
    }
    // 02-03.8: "Once the page has the entry, functions 1, 3, 4 and 5 without a number on port 0 are refused; port 1 takes
    // them". Its error is 5 (02-03.11).
    (port == 0 && values.last_number.is_some()).then_some(5)
}

/// The error of one field of a command of type 01 or 02, on a page with these values: the rest of 01-026's table, which a
/// separate message with this field alone would come to. Where functions 1, 3, 4 and 5 are refused, it is with the error
/// given.
fn field_error(kind: u8, field: &Part, refused: Option<u8>, values: &Values) -> u8 {
    let code = field.code;

    // "3 | [..] or the code is not one of this type's above"
    if !codes_of(kind).contains(&code) {
        return 3;
    }

    // "4 | [..] size wrong"; "Ping has size 0."
    if kind == 0x01 && code == PING {
        return if field.data.is_empty() { 0 } else { 4 };
    }

    // "A setting's data is a function, then the value"
    match (field.data.split_first(), refused) {
        (None, _) => 4,
        // 02-03.11: "error 5 stands after 3 and before a field's own 4." 02-12.7: error 7, "after 3 and before a field's
        // own 4 to 6".
        (Some((1 | 3 | 4 | 5, _)), Some(error)) => error,
        (Some((&function, value)), _) => setting_error(code, function, value, values),
    }
}

/// The error of a setting's field with this function and the bytes behind it, where it is not refused.
fn setting_error(code: u8, function: u8, value: &[u8], values: &Values) -> u8 {
    // "4 | [..] size wrong; function not 1 to 5"
    let value_size = value_size(code).expect("a setting has a value");
    let right = match function {
        // "function 1 needs both;"
        1 => value.len() == value_size,
        // "functions 2 to 5 come with the function only, or with as many value bytes as function 1 has, not looked at."
        2..=5 => value.is_empty() || value.len() == value_size,
        _ => false,
    };
    if !right {
        return 4;
    }

    // 02-05.7: "sent with function 1 or held by the page under function 4, after the size and function tests".
    match function {
        1 => value_error(code, Some(number_of(value))),
        4 => value_error(code, values.value(code)),
        _ => 0,
    }
}

/// The error of the value that is to be used, where there is one.
fn value_error(code: u8, value: Option<u32>) -> u8 {
    match value {
        // 02-05.7: "error 6, not on this board, for 06 or 07"
        Some(value) if not_on_this_board(code, value) => 6,
        // "4 | [..] value not allowed"
        Some(value) if !usable(code, value) => 4,
        // "0 | otherwise"
        _ => 0,
    }
}

/// One row of a reply. 01-042: "one field 80 with size 2: echo and error". 01-044: "An accepted function 2 adds a
/// second field: code, value size, working value." Its code is the echo.
#[derive(Clone, Copy, Debug, PartialEq, Eq)]
pub struct Row {
    pub echo: u8,
    pub error: u8,
    /// The working value.
    pub value: Option<u32>,
}

/// What handling one message gives.
#[derive(Clone, Debug, PartialEq, Eq)]
pub struct Handled {
    /// The reply's rows: one for each field, or the one of a message whose fields are not reached.
    pub rows: Vec<Row>,
    pub reply: Vec<u8>,
    /// Whether a save was accepted, of any field, or a number was fresh.
    pub saved: bool,
    /// The working values afterwards.
    pub settings: Settings,
    /// The page's values afterwards.
    pub values: Values,
}

/// Handles one message of L + 6 bytes, good or damaged, that came on this port of a board of this profile, on the working
/// values and the page's values.
pub fn handle(profile: Profile, port: u8, received: &[u8], settings: Settings, values: Values) -> Handled {
    let kind = kind_of(received);
    let payload = payload_of(received);
    let mut handled = Handled { rows: Vec::new(), reply: Vec::new(), saved: false, settings, values };
    if !sums_right(received) {
        // "1 | sums wrong". 02-03.5: "a damaged message keeps document 01's echo."
        not_reached(payload, 1, &mut handled);
    } else if kind == NUMBERED && profile.restricts(port) {
        // 02-12.7: "any 7C with right sums gets it at once, its number unspent." The echo is that of a 7C whose fields are not
        // reached (02-03.5).
        not_reached(payload.get(5..).unwrap_or(&[]), 7, &mut handled);
    } else if kind == NUMBERED {
        handle_numbered(payload, &mut handled);
    } else {
        handle_command(kind, payload, refused_functions(profile, port, &values), &mut handled);
    }
    handled.reply = reply_of(kind, &handled.rows);
    handled
}

/// Handles the payload of a good message of type 7C, of either port, where the port may use one.
fn handle_numbered(payload: &[u8], handled: &mut Handled) {
    // 02-03.11: "in type 7C, L under 5 is error 4,". There is no code.
    if payload.len() < 5 {
        return not_reached(&[], 4, handled);
    }
    let (number, inner_kind, inner_fields) = (number_of(&payload[..4]), payload[4], &payload[5..]);

    // "then a stale number error 5,"
    if !fresh(number, &handled.values) {
        return not_reached(inner_fields, 5, handled);
    }

    // 02-03.4: "A fresh number is written to the page, then the command inside is handled, with its own errors; the
    // number is spent either way." 02-03.6: "a fresh number sets the feed's mark of a save."
    handled.values = handled.values.with(LAST_NUMBER, number);
    handled.saved = true;

    // "then the inner type (2), then the rest".
    handle_command(inner_kind, inner_fields, None, handled);
}

/// 02-03.3: "A number is fresh if it is larger than the kept one; with no entry, every number is."
pub fn fresh(number: u32, values: &Values) -> bool {
    match values.last_number {
        Some(kept) => number > kept,
        None => true,
    }
}

/// Handles a command of this type and payload; the error that functions 1, 3, 4 and 5 are refused with, where they are.
fn handle_command(kind: u8, payload: &[u8], refused: Option<u8>, handled: &mut Handled) {
    match fields_or_error(kind, payload) {
        // 02-02.3: "It leaves the settings and page that separate messages of the same type, one for each field in
        // order, would leave."
        Ok(fields) => fields.iter().for_each(|field| handle_field(kind, field, refused, handled)),
        Err(error) => not_reached(payload, error, handled),
    }
}

/// The one row where the fields of this payload are not reached. 01-043: "The echo is the first payload byte, or 0 if
/// L = 0." 02-03.5: "the first echo is the inner command's first code, 0 if it has none".
fn not_reached(payload: &[u8], error: u8, handled: &mut Handled) {
    let echo = payload.first().copied().unwrap_or(0);
    handled.rows.push(Row { echo, error, value: None });
}

/// Handles one field, on the settings and the page's values that those before it left.
fn handle_field(kind: u8, field: &Part, refused: Option<u8>, handled: &mut Handled) {
    let code = field.code;
    let error = field_error(kind, field, refused, &handled.values);
    let mut row = Row { echo: code, error, value: None };
    // Only an accepted setting has a function. "Ping without both" (01-048).
    if row.error == 0 && kind == 0x02 {
        let working = handled.settings.value(code);
        match field.data[0] {
            // "Functions: 1 use the value;"
            1 => handled.settings = handled.settings.with(code, number_of(&field.data[1..])),
            // "2 report the working value;"
            2 => row.value = Some(working),
            // "3 save the working value to the page;"
            3 => {
                handled.values = handled.values.with(code, working);
                handled.saved = true;
            }
            // "4 take the page's value;" "Loading [..] take the body from the page if it has the entry, else from the
            // factory page." (01-056) 02-05.3: "function 4 is refused with the working value left."
            4 => {
                let loaded = loaded(code, &handled.values).expect("what is not loaded is refused");
                handled.settings = handled.settings.with(code, loaded);
            }
            // "5 take the factory value."
            5 => handled.settings = handled.settings.with(code, FACTORY.value(code)),
            _ => unreachable!("an accepted function is 1 to 5"),
        }
    }
    handled.rows.push(row);
}

/// 01-042: "Reply: the received type, and one field 80 with size 2: echo and error." 02-02.4: "The reply carries the
/// separate replies' fields in that order." 02-03.5: "The reply has type 7C and the inner command's rows, or one row
/// where its fields are not reached".
pub fn reply_of(kind: u8, rows: &[Row]) -> Vec<u8> {
    let mut payload = Vec::new();
    for row in rows {
        payload.extend([0x80, 2, row.echo, row.error]);
        if let Some(value) = row.value {
            let size = value_size(row.echo).expect("a reported setting has a value");
            payload.extend([row.echo, size as u8]);
            payload.extend(bytes_of(value, size));
        }
    }
    message(kind, &payload)
}
