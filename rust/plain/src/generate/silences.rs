//! What a silence is for: false headers that hide true commands, headers within headers, messages that are cut short; and
//! lists of feeds, silences and restarts of such pieces, drained and not.

use super::numbered::{self, history_of, Silences};
use super::{accepted_command, damage, noise, run, sound_page, Rng, Step};
use crate::Profile;

/// The four bytes of a header that is not A5 A5 A5. 02-06.1: "A false header can claim 255 bytes": half of them do so.
pub fn header(rng: &mut Rng) -> Vec<u8> {
    let length = match rng.below(8) {
        0..=3 => 255,
        4 | 5 => rng.between(40, 254) as u8,
        _ => rng.below(40) as u8,
    };
    vec![0xA5, 0xA5, rng.pick(&[0x00, 0x01, 0x02, 0x7C, 0xA2, 0xFF]), length]
}

/// Up to twelve headers, each within what the one before it claims, with a few bytes between.
pub fn headers(rng: &mut Rng) -> Vec<u8> {
    let mut bytes = Vec::new();
    for _ in 0..rng.between(2, 12) {
        bytes.extend(header(rng));
        if rng.chance(1, 3) {
            bytes.extend(noise(rng));
        }
    }
    bytes
}

/// One piece of a stream, for a board whose page keeps this number.
pub fn piece(rng: &mut Rng, last: Option<u32>) -> Vec<u8> {
    let command = if rng.chance(1, 2) { accepted_command(rng) } else { numbered::command(rng, last) };
    match rng.below(12) {
        // A true command behind a false header, alone or with others.
        0..=2 => [header(rng), command].concat(),
        3 | 4 => [headers(rng), command].concat(),
        5 => [headers(rng), command, header(rng), accepted_command(rng)].concat(),
        // Behind it the silence cuts a message, a damaged one stands, or nothing but a part of a header.
        6 => {
            let length = rng.below(command.len());
            command[..length].to_vec()
        }
        7 => [header(rng), damage(rng, command), accepted_command(rng)].concat(),
        8 => {
            let length = rng.between(1, 3);
            header(rng)[..length].to_vec()
        }
        9 => [run(rng), command].concat(),
        10 => command,
        _ => numbered::numbered_piece(rng, last),
    }
}

/// A page to begin with: blank, sound, or sound and mostly with a number.
pub fn page(rng: &mut Rng) -> [u8; 64] {
    match rng.below(3) {
        0 => [0xFF; 64],
        1 => sound_page(rng),
        _ => numbered::sound_page(rng),
    }
}

/// A list of feeds, silences and restarts, from a start in this profile, over one page, which is blank or sound, of so many
/// pieces on both ports.
pub fn history(rng: &mut Rng, profile: Profile, page: &[u8], pieces: usize, silences: Silences) -> Vec<Step> {
    history_of(rng, (profile, page), pieces, piece, silences)
}
