//! A message (01-006 to 01-012).

use crate::number;

/// The two sums at a message's end.
#[derive(Clone, Copy, Debug, PartialEq, Eq)]
pub struct Sums {
    pub f1: u8,
    pub f2: u8,
}

/// 01-007 to 01-009: "F1 and F2 start at zero. For each byte from the first A5 to the last of the payload, F1 grows by
/// the byte, then F2 by F1. Each sum wraps at 256."
pub fn sums(bytes: &[u8]) -> Sums {
    let mut f1: u8 = 0;
    let mut f2: u8 = 0;
    for &byte in bytes {
        f1 = f1.wrapping_add(byte);
        f2 = f2.wrapping_add(f1);
    }
    Sums { f1, f2 }
}

/// 01-006: "A5 A5, type, length L, L payload bytes, F1, F2; in all L + 6 bytes, 6 to 261."
///
/// The payload has at most 255 bytes.
pub fn message(kind: u8, payload: &[u8]) -> Vec<u8> {
    assert!(payload.len() <= 255, "a payload has at most 255 bytes");
    let mut bytes = vec![0xA5, 0xA5, kind, payload.len() as u8];
    bytes.extend_from_slice(payload);
    let Sums { f1, f2 } = sums(&bytes);
    bytes.push(f1);
    bytes.push(f2);
    bytes
}

/// The type of a message of L + 6 bytes.
pub fn kind_of(message: &[u8]) -> u8 {
    message[2]
}

/// L of a message of L + 6 bytes.
pub fn length_of(message: &[u8]) -> usize {
    usize::from(message[3])
}

/// The L payload bytes of a message of L + 6 bytes.
pub fn payload_of(message: &[u8]) -> &[u8] {
    &message[4..4 + length_of(message)]
}

/// One field of a payload.
#[derive(Clone, Copy, Debug, PartialEq, Eq)]
pub struct Part<'a> {
    pub code: u8,
    /// The index in the payload of the first data byte.
    pub place: usize,
    /// The n data bytes.
    pub data: &'a [u8],
}

/// 01-011: "A payload is a row of fields: code, size n, n data bytes." Nothing where "fields do not fill the payload
/// exactly"; an empty row where the payload is empty.
pub fn fields_of(payload: &[u8]) -> Option<Vec<Part<'_>>> {
    let mut fields = Vec::new();
    let mut at = 0;
    while at < payload.len() {
        let code = payload[at];
        let size = usize::from(*payload.get(at + 1)?);
        let place = at + 2;
        let data = payload.get(place..place + size)?;
        fields.push(Part { code, place, data });
        at = place + size;
    }
    Some(fields)
}

/// Whether the last two of a message's L + 6 bytes are the sums of those before them.
pub fn sums_right(message: &[u8]) -> bool {
    let last_of_payload = message.len() - 2;
    let Sums { f1, f2 } = sums(&message[..last_of_payload]);
    message[last_of_payload] == f1 && message[last_of_payload + 1] == f2
}

/// One whole message with right sums: 0, or the first of 21 and 22 that applies.
///
/// 01-076: "21 | not one whole message: under 6 bytes, no A5 A5, or not L + 6 bytes"; 01-077: "22 | sums wrong".
pub fn check_message(message: &[u8]) -> u8 {
    if message.len() < 6 {
        return number::NOT_WHOLE;
    }
    if message[0] != 0xA5 || message[1] != 0xA5 {
        return number::NOT_WHOLE;
    }
    if message.len() != length_of(message) + 6 {
        return number::NOT_WHOLE;
    }
    if !sums_right(message) {
        return number::SUMS;
    }
    number::DONE
}

/// 01-012: "Numbers are big-endian." At most four bytes.
pub fn number_of(bytes: &[u8]) -> u32 {
    assert!(bytes.len() <= 4, "a number has at most four bytes");
    let mut value: u32 = 0;
    for &byte in bytes {
        value = value * 256 + u32::from(byte);
    }
    value
}

/// 01-012: "Numbers are big-endian." The last `size` bytes of the number's four.
pub fn bytes_of(value: u32, size: usize) -> Vec<u8> {
    value.to_be_bytes()[4 - size..].to_vec()
}
