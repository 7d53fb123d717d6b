//! The place and size of the fields of a data message.

use crate::calls::Calls;
use crate::group::{Outcome, Ran};
use crate::lists::hex;
use crate::messages::{field, field_copy};
use plain::generate::Rng;

/// Each field of the data message with fields of these codes and sizes, and two that it does not have.
fn every_field(calls: &impl Calls, rng: &mut Rng, fields: &[(u8, usize)], ran: &mut Ran) -> Outcome {
    let bytes = fields.iter().flat_map(|&(code, size)| [vec![code, size as u8], rng.bytes(size)]);
    let message = plain::message(0xA2, &bytes.collect::<Vec<_>>().concat());
    (0..fields.len() + 2)
        .try_for_each(|k| field(calls, &message, k, ran).and_then(|()| field_copy(calls, &message, k, 253, ran)))
        .map_err(|text| format!("{text}\n  message {}", hex(&message)))
}

/// Each code with some sizes; each size that a field can have; and two fields of each two sizes that fill no more than a payload, so
/// that the second stands at each place.
pub fn all(calls: &impl Calls, rng: &mut Rng, ran: &mut Ran) -> Outcome {
    for code in 0..=255 {
        for size in [0, 1, 11, 12, 13, 24, 200] {
            every_field(calls, rng, &[(0x81, 12), (code, size), (0x82, 12)], ran)?;
        }
    }
    (0..=253).try_for_each(|size| every_field(calls, rng, &[(0x83, size)], ran))?;
    for first in 0..=251 {
        for second in 0..=251 - first {
            every_field(calls, rng, &[(0x83, first), (0x10, second)], ran)?;
        }
    }
    (0..=239).try_for_each(|size| every_field(calls, rng, &[(0x83, size), (0x81, 12)], ran))
}
