//! Single feeds, silences and starts on boards and pages of any contents, and each command there is.

use crate::calls::Calls;
use crate::feeding::{self, Given, Pair, Start};
use crate::group::{Outcome, Ran};
use crate::lists::hex;
use crate::records;
use ketphiroj::Board;
use plain::generate::{self, fields, numbered, Rng};

/// One feed of a board of any contents, sound or not, with junk past the held bytes. One page in three mostly keeps a
/// number.
pub fn any(calls: &impl Calls, rng: &mut Rng, ran: &mut Ran) -> Outcome {
    let plain = generate::board(rng);
    let page = if rng.chance(1, 3) { numbered::page(rng) } else { generate::page(rng) };
    let last = plain::values(&page).and_then(|values| values.last_number);
    let pieces = rng.below(4);
    let mut chunk = match rng.below(4) {
        0 => fields::piece_with_fields(rng),
        1 => numbered::numbered_piece(rng, last),
        _ => generate::stream(rng, pieces),
    };
    chunk.truncate(generate::chunk_length(rng));
    let pair = Pair { board: records::board(&plain), plain, page };
    let given = Given::Feed { port: generate::port(rng), chunk: &chunk, room: generate::room(rng) };
    one(calls, &pair, given, ran)
}

/// One call, of the library and of its wrapper.
pub fn one(calls: &impl Calls, before: &Pair, given: Given, ran: &mut Ran) -> Outcome {
    let mut after = before.clone();
    let fed = feeding::call(calls, &mut after, given);
    let compared = fed.and_then(|(fed, room)| {
        ran.count(fed.number);
        feeding::call_wrapped(calls, (before, &after), given, &fed, &room)
    });
    compared.map_err(|text| format!("{text}\n{}", shown(before, given)))
}

fn shown(before: &Pair, given: Given) -> String {
    let [first, second] = &before.plain.ports;
    let call = match given {
        Given::Feed { port, chunk, room } => format!("feed port {port}, room {room}, chunk {}", hex(chunk)),
        Given::Silence { port, room } => format!("silence of port {port}, room {room}"),
    };
    format!(
        "  {call}\n  page {}\n  port 0 holds {} of {}\n  port 1 holds {} of {}\n  {:?}, {:?}\n  {:?}",
        hex(&before.page),
        first.held,
        hex(&first.bytes),
        second.held,
        hex(&second.bytes),
        before.plain.settings,
        before.plain.profile,
        before.plain.tallies
    )
}

/// A start on a page of any contents and length.
pub fn start(calls: &impl Calls, given: Start, ran: &mut Ran) -> Outcome {
    let Start { profile, page } = given;
    let (number, pair) =
        feeding::start(calls, given).map_err(|text| format!("{text}\n  {profile:?}, page {}", hex(page)))?;
    ran.count(number);
    let wrapped = calls.wrapped_start(records::profile(profile), page).map_err(|refusal| refusal.number());
    let expected = if number == 0 { Ok(pair.board) } else { Err(number) };
    crate::group::same("wrapped start", &wrapped, &expected)
}

/// Starts on pages of all kinds; on each sound page, and on each page that differs from it in one byte.
pub fn starts(calls: &impl Calls, rng: &mut Rng, ran: &mut Ran) -> Outcome {
    for values in all_values() {
        let page = plain::write_page(&values);
        start_in_any(calls, rng, &page, ran)?;
        for at in 0..64 {
            let mut other = page;
            other[at] = rng.byte();
            start_in_any(calls, rng, &other, ran)?;
        }
    }
    for _ in 0..200_000 {
        let (page, numbered) = (generate::page(rng), numbered::page(rng));
        start_in_any(calls, rng, &page, ran)?;
        start_in_any(calls, rng, &numbered, ran)?;
    }
    (0..200).try_for_each(|length| start_in_any(calls, rng, &vec![0xFF; length], ran))
}

/// A start in either profile.
pub fn start_in_any(calls: &impl Calls, rng: &mut Rng, page: &[u8], ran: &mut Ran) -> Outcome {
    start(calls, Start { profile: generate::profile(rng), page }, ran)
}

/// The 280 storable choices of values under the settings' codes, without a number and with each of some.
pub fn all_values() -> Vec<plain::Values> {
    let mut all = Vec::new();
    for last_number in std::iter::once(None).chain(numbered::ENDS.map(Some)) {
        for baud in std::iter::once(None).chain(generate::BAUDS.map(Some)) {
            for accelerometer in std::iter::once(None).chain((1..=4).map(Some)) {
                for gyroscope in std::iter::once(None).chain((1..=7).map(Some)) {
                    all.push(plain::Values { baud, accelerometer, gyroscope, last_number });
                }
            }
        }
    }
    all
}

/// A board that holds nothing, with any usable settings and any totals, in either profile, on this page.
pub fn holding_nothing(rng: &mut Rng, page: &[u8]) -> Pair {
    let profile = generate::profile(rng);
    holding_nothing_in(rng, profile, page)
}

/// Such a board in this profile.
pub fn holding_nothing_in(rng: &mut Rng, profile: plain::Profile, page: &[u8]) -> Pair {
    let ports = [plain::Port::fresh(), plain::Port::fresh()];
    let (settings, tallies) = (generate::usable_settings(rng), generate::tallies(rng));
    let plain = plain::Board { ports, settings, profile, tallies };
    Pair { board: records::board(&plain), plain, page: page.to_vec() }
}

/// One message, fed whole to a board that holds nothing.
pub fn command(calls: &impl Calls, rng: &mut Rng, kind: u8, payload: &[u8], ran: &mut Ran) -> Outcome {
    let page = generate::sound_page(rng);
    let pair = holding_nothing(rng, &page);
    let given = Given::Feed { port: rng.below(2) as u8, chunk: &plain::message(kind, payload), room: Board::REPLY };
    one(calls, &pair, given, ran)
}

/// Each type with each code; each code with payloads and size bytes that do not go together; each code of the board with
/// each function and values of each size, all values of one byte among them.
pub fn commands(calls: &impl Calls, rng: &mut Rng, ran: &mut Ran) -> Outcome {
    for kind in 0..=255 {
        for code in 0..=255 {
            command(calls, rng, kind, &[code, 1, 2], ran)?;
        }
    }
    for kind in [0x01, 0x02, 0x03] {
        for code in 0..=255 {
            sizes(calls, rng, kind, code, ran)?;
        }
    }
    for kind in [0x01, 0x02] {
        for code in [0x01, 0x02, 0x07, 0x08] {
            for function in 0..=255 {
                functions(calls, rng, kind, [code, function], ran)?;
            }
        }
    }
    Ok(())
}

/// Payloads of 0 to 8 bytes with each size byte up to 9, and the largest.
fn sizes(calls: &impl Calls, rng: &mut Rng, kind: u8, code: u8, ran: &mut Ran) -> Outcome {
    for size in (0..=9).chain([0xFE, 0xFF]) {
        let payload = [code, size, rng.between(1, 5) as u8, 0, 1, 0xC2, 0, 0];
        (0..=payload.len()).try_for_each(|length| command(calls, rng, kind, &payload[..length], ran))?;
    }
    Ok(())
}

fn functions(calls: &impl Calls, rng: &mut Rng, kind: u8, [code, function]: [u8; 2], ran: &mut Ran) -> Outcome {
    let mut with = |value: &[u8]| {
        let mut payload = vec![code, 1 + value.len() as u8, function];
        payload.extend_from_slice(value);
        command(calls, rng, kind, &payload, ran)
    };
    for value in words() {
        with(&value.to_be_bytes())?;
    }
    for size in [0, 2, 3, 5, 6] {
        with(&[0, 1, 2, 3, 0, 0][..size])?;
    }
    // All one-byte values, but for functions that refuse them all only a few.
    let last = if function <= 6 { 255 } else { 8 };
    (0..=last).try_for_each(|value| with(&[value]))
}

/// Baud rates, and what is near them.
fn words() -> Vec<u32> {
    let near = |baud: u32| [baud, baud - 1, baud + 1, baud ^ 0x0100_0000, baud << 8, baud >> 8, baud.swap_bytes()];
    let mut words: Vec<u32> = generate::BAUDS.into_iter().flat_map(near).collect();
    words.extend([0, 1, 300, 38400, 57600, 1_843_200, u32::MAX]);
    words
}
