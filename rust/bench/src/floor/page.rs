//! The start-up page of the floor programs: its test, its values and its writing.

/// A page of 64 bytes.
pub type Page = [u8; 64];

const CODES: [u8; 4] = [0x01, 0x07, 0x08, 0x70];

/// The contents of a page with the three settings, and of one with the number too; behind them the bodies stand.
const THREE: [u8; 10] = [3, 0x01, 10, 4, 0x07, 14, 1, 0x08, 15, 1];
const FOUR: [u8; 13] = [4, 0x01, 13, 4, 0x07, 17, 1, 0x08, 18, 1, 0x70, 19, 4];

/// Where the bodies of the three settings stand, where all three are there: baud, then the ranges.
const BODIES_OF_THREE: usize = THREE.len();
const BODIES_OF_FOUR: usize = FOUR.len();

/// What is known of a blank or sound page.
#[derive(Clone, Copy)]
pub struct Kept {
    /// Where the settings' bodies stand, where it has all three; else 0.
    pub bodies: usize,
    /// Whether it has a number.
    pub numbered: bool,
}

/// The values of a page; 0 where there is none, which is no value of a setting.
#[derive(Clone, Copy, Default)]
pub struct Values {
    pub settings: [u32; 3],
    pub number: Option<u32>,
}

/// A hash that gives each of the six rates a place of its own.
const fn rate_place(baud: u32) -> usize {
    (baud.wrapping_mul(0x7655) >> 29) as usize
}

const RATES: [u32; 8] = {
    let rates = [9600, 19200, 115200, 230400, 460800, 921600];
    let mut places = [0; 8];
    let mut k = 0;
    while k < rates.len() {
        assert!(places[rate_place(rates[k])] == 0, "two rates in one place");
        places[rate_place(rates[k])] = rates[k];
        k += 1;
    }
    // 0 is no rate, and stands in the places that are left.
    assert!(places[rate_place(0)] != 0, "0 would be a rate");
    places
};

#[inline(always)]
pub fn rate_allowed(baud: u32) -> bool {
    RATES[rate_place(baud)] == baud
}

#[inline(always)]
pub fn word(bytes: &[u8]) -> u32 {
    u32::from_be_bytes([bytes[0], bytes[1], bytes[2], bytes[3]])
}

/// What is kept, where the page is blank or sound.
#[inline(always)]
pub fn test(page: &Page) -> Option<Kept> {
    let kept = match page[0] {
        0xFF => Kept { bodies: 0, numbered: false },
        3 if page[..THREE.len()] == THREE => Kept { bodies: BODIES_OF_THREE, numbered: false },
        4 => Kept { bodies: BODIES_OF_FOUR, numbered: true },
        _ => return test_others(page),
    };
    let right = match page[0] {
        0xFF => all_blank(page, 0),
        3 => settings_right(page, BODIES_OF_THREE) & all_blank(page, 16),
        _ => (page[..FOUR.len()] == FOUR) & settings_right(page, BODIES_OF_FOUR) & all_blank(page, 23),
    };
    right.then_some(kept)
}

#[inline(always)]
fn settings_right(page: &Page, at: usize) -> bool {
    let rate = word(&page[at..at + 4]);
    rate_allowed(rate) & (page[at + 4].wrapping_sub(1) < 4) & (page[at + 5].wrapping_sub(1) < 7)
}

/// Whether FF stands from a place to the end: word by word, from which fewer lanes are to be folded than from bytes.
#[inline(always)]
fn all_blank(page: &Page, from: usize) -> bool {
    let (bytes, words) = page[from..].as_rchunks();
    let all = words.iter().fold(u64::MAX, |all, &word| all & u64::from_ne_bytes(word));
    bytes.iter().fold(all, |all, &byte| all & (u64::MAX << 8 | u64::from(byte))) == u64::MAX
}

#[cold]
#[inline(never)]
fn test_others(page: &Page) -> Option<Kept> {
    values(page).map(|values| Kept { bodies: 0, numbered: values.number.is_some() })
}

/// The values of a page that is neither blank nor has all settings, or of any other.
#[inline(never)]
pub fn values(page: &Page) -> Option<Values> {
    let mut values = Values::default();
    let count = usize::from(page[0]);
    if count == 0xFF {
        return all_blank(page, 0).then_some(values);
    }
    if !(1..=4).contains(&count) {
        return None;
    }
    let (mut start, mut least) = (1 + 3 * count, 0);
    for entry in page[1..1 + 3 * count].chunks_exact(3) {
        let place = CODES.iter().position(|&code| code == entry[0]).filter(|&place| place >= least)?;
        least = place + 1;
        let size = size_of(place);
        if usize::from(entry[1]) != start || usize::from(entry[2]) != size {
            return None;
        }
        let value = if size == 4 { word(&page[start..]) } else { u32::from(page[start]) };
        match place {
            3 => values.number = Some(value),
            _ if storable(place, value) => values.settings[place] = value,
            _ => return None,
        }
        start += size;
    }
    all_blank(page, start).then_some(values)
}

fn size_of(place: usize) -> usize {
    if place.is_multiple_of(3) {
        4
    } else {
        1
    }
}

fn storable(place: usize, value: u32) -> bool {
    match place {
        0 => rate_allowed(value),
        1 => value.wrapping_sub(1) < 4,
        _ => value.wrapping_sub(1) < 7,
    }
}

/// Writes the page anew, and says what is known of it.
#[inline(never)]
pub fn write(values: &Values, page: &mut Page) -> Kept {
    *page = [0xFF; 64];
    let all = [values.settings[0], values.settings[1], values.settings[2], values.number.unwrap_or(0)];
    let there = |place: usize| if place == 3 { values.number.is_some() } else { all[place] != 0 };
    let count = (0..4).filter(|&place| there(place)).count();
    page[0] = count as u8;
    let (mut at, mut start) = (1, 1 + 3 * count);
    for place in (0..4).filter(|&place| there(place)) {
        let size = size_of(place);
        page[at..at + 3].copy_from_slice(&[CODES[place], start as u8, size as u8]);
        page[start..start + size].copy_from_slice(&all[place].to_be_bytes()[4 - size..]);
        at += 3;
        start += size;
    }
    let bodies = if values.settings.contains(&0) { 0 } else { 1 + 3 * count };
    Kept { bodies, numbered: values.number.is_some() }
}

/// Puts a number in, and says what is known of the page then.
#[inline(always)]
pub fn put_number(number: u32, kept: Kept, page: &mut Page) -> Kept {
    if kept.bodies == BODIES_OF_FOUR {
        page[19..23].copy_from_slice(&number.to_be_bytes());
        return kept;
    }
    let values = Values { number: Some(number), ..values(page).expect("a page that was tested") };
    write(&values, page)
}

/// The number that the page has.
#[inline(always)]
pub fn number(kept: Kept, page: &Page) -> Option<u32> {
    if kept.bodies == BODIES_OF_FOUR {
        return Some(word(&page[19..23]));
    }
    values(page).expect("a page that was tested").number
}
