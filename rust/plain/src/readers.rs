//! The reply reader (01-046; 02-02.7, 02-03.6, 02-05.6, 02-05.7, 02-12.7) and the data reader (01-089 to 01-091).

use crate::handling::{readable, value_size, Row, ACCELEROMETER, BAUD, GYROSCOPE, NUMBERED};
use crate::message::{check_message, fields_of, kind_of, number_of, payload_of, Part};
use crate::number;

/// What the reply reader answers; "a refusal [..] (a reader: zeros and an empty part)" (01-087).
#[derive(Clone, Copy, Debug, PartialEq, Eq)]
pub struct Reply {
    pub number: u8,
    pub kind: u8,
    pub echo: u8,
    pub error: u8,
    /// The value of the row's second field, whose code is the echo.
    pub value: Option<u32>,
}

/// Row number `row` of a reply, counted from 0. 01-084: "the reply reader 21 to 23"; 02-02.7: "by number (27 for
/// none)".
pub fn read_reply(message: &[u8], row: usize) -> Reply {
    let refused = |number| Reply { number, kind: 0, echo: 0, error: 0, value: None };
    let whole = check_message(message);
    if whole != number::DONE {
        return refused(whole);
    }
    let kind = kind_of(message);
    let Some(rows) = rows_of(kind, payload_of(message)) else {
        return refused(number::NOT_THIS_KIND);
    };
    match rows.get(row) {
        Some(&Row { echo, error, value }) => Reply { number: number::DONE, kind, echo, error, value },
        None => refused(number::NO_FIELD),
    }
}

/// The rows of a reply of this type; nothing where it is none.
///
/// 02-02.7: "The reply reader takes 1 to 16 of these rows [..], several only in types 01 and 02". 02-03.6: "The reply
/// reader takes 7C rows as type 02's".
fn rows_of(kind: u8, payload: &[u8]) -> Option<Vec<Row>> {
    let most = if [0x01, 0x02, NUMBERED].contains(&kind) { 16 } else { 1 };
    let fields = fields_of(payload)?;
    let mut rows = Vec::new();
    let mut rest = &fields[..];
    while let Some((first, after)) = rest.split_first() {
        let mut row = row_of(first)?;
        rest = after;
        // A field 80 opens the next row: no value's code is 80.
        if let Some((second, after)) = rest.split_first().filter(|(second, _)| second.code != 0x80) {
            row.value = Some(value_of(kind, &row, second)?);
            rest = after;
        }
        rows.push(row);
    }
    (1..=most).contains(&rows.len()).then_some(rows)
}

/// "The reply reader takes a field 80 of size 2 with an error of the table above, as the table stands at the time, and
/// nothing after it;" 02-03.6: "and error 5". 02-05.7: "error 6, not on this board". 02-12.7: "error 7, not allowed on this
/// port".
fn row_of(field: &Part) -> Option<Row> {
    match *field.data {
        [echo, error @ 0..=7] if field.code == 0x80 => Some(Row { echo, error, value: None }),
        _ => None,
    }
}

/// "or, with type 02 and error 0, one more field whose code is the echo (01, 07 or 08), with its value size and an
/// allowed value." 02-03.6: "7C rows as type 02's". 02-05.6: "The reply reader still takes them, from older boards."
fn value_of(kind: u8, row: &Row, field: &Part) -> Option<u32> {
    let echo = row.echo;
    let reports = kind == 0x02 || kind == NUMBERED;
    if !reports || row.error != 0 {
        return None;
    }
    if ![BAUD, ACCELEROMETER, GYROSCOPE].contains(&echo) || field.code != echo {
        return None;
    }
    if Some(field.data.len()) != value_size(echo) {
        return None;
    }
    Some(number_of(field.data)).filter(|&value| readable(echo, value))
}

/// 01-090: "Each field read is an acceleration, a rate or an unknown one."
///
/// The three axes are the bits of three IEEE 754 single floats X, Y, Z.
#[derive(Clone, Copy, Debug, PartialEq, Eq)]
pub enum Field {
    /// "Field 81 is acceleration in g"
    Acceleration([u32; 3]),
    /// "82 rate in degrees per second"
    Rate([u32; 3]),
    /// The code, and the index in the message of the first data byte.
    Unknown { code: u8, place: usize },
}

/// 01-084: "the data reader 21 to 25, then 27". The field number k, or the number of the refusal.
fn field(message: &[u8], k: usize) -> Result<Part<'_>, u8> {
    // "21 | not one whole message"; "22 | sums wrong"
    let whole = check_message(message);
    if whole != number::DONE {
        return Err(whole);
    }
    // "23 | data reader: not type A2"
    if kind_of(message) != 0xA2 {
        return Err(number::NOT_THIS_KIND);
    }
    // "24 | fields do not fill the payload exactly"
    let fields = fields_of(payload_of(message)).ok_or(number::FIELDS)?;
    // "25 | field 81 or 82 whose size is not 12"
    if fields.iter().any(|field| (field.code == 0x81 || field.code == 0x82) && field.data.len() != 12) {
        return Err(number::FIELD_SIZE);
    }
    // "27 | no field of that number, counted from 0"
    fields.into_iter().nth(k).ok_or(number::NO_FIELD)
}

/// What field number k is. A refusal gives the unknown field of zeros.
pub fn read_field(message: &[u8], k: usize) -> (u8, Field) {
    let part = match field(message, k) {
        Ok(part) => part,
        Err(refused) => return (refused, Field::Unknown { code: 0, place: 0 }),
    };
    // "three IEEE 754 single floats X, Y, Z, a record of three axes carried bit for bit, NaN patterns too."
    let axis = |axis: usize| number_of(&part.data[4 * axis..4 * axis + 4]);
    let field = match part.code {
        0x81 => Field::Acceleration([axis(0), axis(1), axis(2)]),
        0x82 => Field::Rate([axis(0), axis(1), axis(2)]),
        // The payload begins behind the message's first four bytes.
        code => Field::Unknown { code, place: 4 + part.place },
    };
    (number::DONE, field)
}

/// Which part of the message the data bytes of field number k are, whatever the field is: the number, the index of the first of
/// them, and how many there are. A refusal gives "zeros and an empty part" (01-087).
pub fn field_place(message: &[u8], k: usize) -> (u8, usize, usize) {
    match field(message, k) {
        // 01-006: "A5 A5, type, length L" stand before the payload. 01-011: "code, size n, n data bytes".
        Ok(part) => (number::DONE, 4 + part.place, part.data.len()),
        Err(refused) => (refused, 0, 0),
    }
}

/// 01-091: "A field's data bytes are also handed out as that part of the message itself." A refusal gives an empty
/// part.
pub fn field_data(message: &[u8], k: usize) -> &[u8] {
    match field(message, k) {
        Ok(part) => part.data,
        Err(_) => &[],
    }
}
