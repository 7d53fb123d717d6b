//! The gyroscope's ranges that this board no longer takes: commands with them, pages that hold them, and histories of feeds
//! and restarts over such pages.

use super::numbered::{self, history_of, numbered, Silences};
use super::{fields, Rng, Step};
use crate::{message, write_page, Profile, Values};

/// 02-05.2: "Codes 06 and 07 are no longer taken."
pub const OLD: [u8; 2] = [0x06, 0x07];

/// A field of the gyroscope's range: mostly function 1 with such a range, and function 4. Value and size may be wrong.
pub fn field(rng: &mut Rng) -> Vec<u8> {
    let function = rng.pick(&[1, 1, 1, 1, 4, 4, 4, 4, 2, 3, 3, 5, 0, 6]);
    let value = match rng.below(4) {
        0 => rng.below(10) as u8,
        _ => rng.pick(&OLD),
    };
    match rng.below(8) {
        0 => vec![0x08, 3, function, value, value],
        1..=4 if function != 1 => vec![0x08, 1, function],
        1 => vec![0x08, 1, function],
        _ => vec![0x08, 2, function, value],
    }
}

/// A command with one to three such fields, for a board whose page keeps this number: with a number or without. Now and
/// then a field of another kind stands among them.
pub fn command(rng: &mut Rng, last: Option<u32>) -> Vec<u8> {
    let mut payload = Vec::new();
    for _ in 0..rng.between(1, 3) {
        payload.extend(if rng.chance(1, 8) { fields::accepted_field(rng, 0x02) } else { field(rng) });
    }
    if rng.chance(1, 3) {
        return numbered(numbered::number(rng, last), 0x02, &payload);
    }
    message(0x02, &payload)
}

/// One piece of a stream: mostly such commands.
pub fn piece(rng: &mut Rng, last: Option<u32>) -> Vec<u8> {
    if rng.chance(1, 4) {
        return numbered::numbered_piece(rng, last);
    }
    command(rng, last)
}

/// A sound page that holds such a range, with a number or without.
pub fn old_page(rng: &mut Rng) -> [u8; 64] {
    let values = if rng.chance(1, 2) { numbered::values(rng) } else { super::values(rng) };
    write_page(&Values { gyroscope: Some(rng.pick(&OLD)), ..values })
}

/// A list of feeds and restarts, from a start in this profile, over one page, with commands of the gyroscope's range.
pub fn history(rng: &mut Rng, profile: Profile, page: &[u8], pieces: usize) -> Vec<Step> {
    history_of(rng, (profile, page), pieces, piece, Silences::None)
}
