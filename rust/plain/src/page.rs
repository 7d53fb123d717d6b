//! The start-up page (01-049 to 01-056), with the last number accepted as entry 70 (02-03.2), and with values that this
//! board no longer takes (02-05.3).

use crate::handling::{storable, value_size, ACCELEROMETER, BAUD, FACTORY, GYROSCOPE};
use crate::message::{bytes_of, number_of};
use crate::number;

/// 01-049: "64 bytes"
pub const PAGE: usize = 64;

/// The page's values, "one or none under each code" (01-060).
#[derive(Clone, Copy, Debug, Default, PartialEq, Eq)]
pub struct Values {
    /// Under code 01.
    pub baud: Option<u32>,
    /// Under code 07.
    pub accelerometer: Option<u8>,
    /// Under code 08.
    pub gyroscope: Option<u8>,
    /// Under code 70. 02-03.2: "the last number accepted".
    pub last_number: Option<u32>,
}

/// 02-03.2: "The page keeps the last number accepted as entry 70". It is no setting.
pub const LAST_NUMBER: u8 = 0x70;

/// The codes that an entry can have. 01-052: "Codes ascend."
pub const CODES: [u8; 4] = [BAUD, ACCELEROMETER, GYROSCOPE, LAST_NUMBER];

/// How many bytes the body under a code has: a setting's value size. 02-03.2: "entry 70, four bytes". None for other
/// codes.
fn body_size(code: u8) -> Option<usize> {
    match code {
        LAST_NUMBER => Some(4),
        _ => value_size(code),
    }
}

impl Values {
    /// The value under code 01, 07, 08 or 70, if there is one.
    pub fn value(&self, code: u8) -> Option<u32> {
        match code {
            BAUD => self.baud,
            ACCELEROMETER => self.accelerometer.map(u32::from),
            GYROSCOPE => self.gyroscope.map(u32::from),
            LAST_NUMBER => self.last_number,
            _ => panic!("no entry has code {code:02X}"),
        }
    }

    /// 01-055: "A save puts its value in, keeps the other entries". A number that is written is put in the same way.
    pub fn with(mut self, code: u8, value: u32) -> Values {
        match code {
            BAUD => self.baud = Some(value),
            ACCELEROMETER => self.accelerometer = Some(u8::try_from(value).expect("a range is one byte")),
            GYROSCOPE => self.gyroscope = Some(u8::try_from(value).expect("a range is one byte")),
            LAST_NUMBER => self.last_number = Some(value),
            _ => panic!("no entry has code {code:02X}"),
        }
        self
    }
}

/// Whether a sound page may hold each value that is there. 02-03.2: entry 70 has "four bytes of any value".
fn storable_values(values: &Values) -> bool {
    CODES.iter().all(|&code| match values.value(code) {
        None => true,
        Some(_) if code == LAST_NUMBER => true,
        Some(value) => storable(code, value),
    })
}

/// The writing of values, storable or not; blank with none.
pub fn write_page(values: &Values) -> [u8; PAGE] {
    let mut entries: Vec<(u8, Vec<u8>)> = Vec::new();
    // "Codes ascend."
    for code in CODES {
        if let Some(value) = values.value(code) {
            let size = body_size(code).expect("an entry has a body");
            entries.push((code, bytes_of(value, size)));
        }
    }

    // "then FF to the end"; "Blank: 64 bytes FF, no entry."
    let mut page = [0xFF; PAGE];
    if entries.is_empty() {
        return page;
    }

    // "Byte 0: the number of entries, 1 to 3." 02-03.2: "so up to four entries".
    page[0] = entries.len() as u8;
    let mut place = 1;
    // "Then for each entry code, offset, length;"
    let mut offset = 1 + 3 * entries.len();
    for (code, body) in &entries {
        page[place] = *code;
        page[place + 1] = offset as u8;
        page[place + 2] = body.len() as u8;
        place += 3;
        offset += body.len();
    }
    // "then the bodies in the same order, close together;"
    for (_, body) in &entries {
        page[place..place + body.len()].copy_from_slice(body);
        place += body.len();
    }
    page
}

/// 01-056: "the factory page": the writing of the factory values. No number is among them.
pub fn factory_page() -> [u8; PAGE] {
    write_page(&Values {
        baud: Some(FACTORY.baud),
        accelerometer: Some(FACTORY.accelerometer),
        gyroscope: Some(FACTORY.gyroscope),
        last_number: None,
    })
}

/// The values that a page of 64 bytes must have been written from, if it is the writing of any: the codes of its entries,
/// and the bodies behind them in the same order. Whether it is their writing is not told.
fn values_behind(page: &[u8]) -> Option<Values> {
    let count = usize::from(page[0]);
    if count > CODES.len() {
        return None;
    }
    let mut values = Values::default();
    let mut place = 1 + 3 * count;
    for entry in 0..count {
        let code = page[1 + 3 * entry];
        let size = body_size(code)?;
        values = values.with(code, number_of(&page[place..place + size]));
        place += size;
    }
    Some(values)
}

/// The values of a blank or sound page; nothing for another one.
///
/// 01-053: "Blank: 64 bytes FF, no entry." 01-054: "Sound: blank, or exactly the writing of some allowed values under
/// codes 01, 07, 08", and since 02-03.2 under 70. 02-05.3: "Old pages that hold them stay sound": those allowed are the
/// storable ones.
pub fn values(page: &[u8]) -> Option<Values> {
    if page.len() != PAGE {
        return None;
    }
    if page.iter().all(|&byte| byte == 0xFF) {
        return Some(Values::default());
    }
    values_behind(page).filter(|values| storable_values(values) && write_page(values)[..] == *page)
}

/// 0, or the first of 19 and 20 that applies.
///
/// 01-074: "19 | page not 64 bytes"; 01-075: "20 | page neither blank nor sound".
pub fn check_page(page: &[u8]) -> u8 {
    if page.len() != PAGE {
        return number::PAGE_LENGTH;
    }
    if values(page).is_none() {
        return number::PAGE;
    }
    number::DONE
}

/// The test of a page, and its values: none where it is refused, as "a reader: zeros" (01-087) has none.
pub fn read_page(page: &[u8]) -> (u8, Values) {
    (check_page(page), values(page).unwrap_or_default())
}

/// The body that a blank or sound page has under a code, if it has the entry.
fn entry(page: &[u8], code: u8) -> Option<&[u8]> {
    // "Blank: 64 bytes FF, no entry."
    let count = if page[0] == 0xFF { 0 } else { usize::from(page[0]) };
    for place in 0..count {
        let entry = &page[1 + 3 * place..4 + 3 * place];
        if entry[0] == code {
            let offset = usize::from(entry[1]);
            let length = usize::from(entry[2]);
            return Some(&page[offset..offset + length]);
        }
    }
    None
}

/// 01-056: "take the body from the page if it has the entry, else from the factory page". Both are blank or sound. Where
/// neither has it, the body is empty.
pub(crate) fn body_of<'a>(saved: &'a [u8], factory: &'a [u8], code: u8) -> &'a [u8] {
    match entry(saved, code) {
        Some(body) => body,
        None => entry(factory, code).unwrap_or(&[]),
    }
}

/// The test of the saved page, then of the factory page, and the body; "an empty part" where one of them is refused.
pub fn body<'a>(saved: &'a [u8], factory: &'a [u8], code: u8) -> (u8, &'a [u8]) {
    for page in [saved, factory] {
        let refused = check_page(page);
        if refused != number::DONE {
            return (refused, &[]);
        }
    }
    (number::DONE, body_of(saved, factory, code))
}
