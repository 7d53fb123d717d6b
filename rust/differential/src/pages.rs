//! The calls of the start-up page.

use crate::calls::Calls;
use crate::group::{filled, same, Outcome, Ran};
use crate::lists::hex;
use crate::records;
use crate::singles::all_values;
use ketphiroj::ffi::{FlatPage, FlatValues};
use ketphiroj::{Refusal, Values};
use plain::generate::{self, numbered, Rng};

/// The test and the values of a page of any contents and length.
pub fn read(calls: &impl Calls, page: &[u8], ran: &mut Ran) -> Outcome {
    let (number, values) = plain::read_page(page);
    let values = records::values(&values);
    ran.count(number);
    let read = calls.wrapped_read_values(page).map_err(Refusal::number);
    let checked = calls.wrapped_check_page(page).map_err(Refusal::number);
    same("check_page", &calls.check_page(page), &number)
        .and_then(|()| same("read_page", &calls.read_page(page), &FlatPage { values, number }))
        .and_then(|()| same("wrapped values", &read, &done_or(number, optional(&values))))
        .and_then(|()| same("wrapped check", &checked, &done_or(number, ())))
        .map_err(|text| format!("{text}\n  page {}", hex(page)))
}

/// What the wrapper gives where a call answers this number.
pub fn done_or<T>(number: u8, done: T) -> Result<T, u8> {
    match number {
        plain::number::DONE => Ok(done),
        refused => Err(refused),
    }
}

fn optional(flat: &FlatValues) -> Values {
    Values {
        baud: flat.has_baud.then_some(flat.baud),
        accelerometer: flat.has_accelerometer.then_some(flat.accelerometer),
        gyroscope: flat.has_gyroscope.then_some(flat.gyroscope),
        last_number: flat.has_last_number.then_some(flat.last_number),
    }
}

/// Pages of all kinds, each sound page, and each page that differs from one in one byte.
pub fn read_all(calls: &impl Calls, rng: &mut Rng, ran: &mut Ran) -> Outcome {
    for values in all_values() {
        let page = plain::write_page(&values);
        read(calls, &page, ran)?;
        for at in 0..64 {
            let mut other = page;
            other[at] = other[at].wrapping_add(rng.between(1, 255) as u8);
            read(calls, &other, ran)?;
        }
    }
    for _ in 0..300_000 {
        read(calls, &generate::page(rng), ran)?;
        read(calls, &numbered::page(rng), ran)?;
    }
    (0..200).try_for_each(|length| read(calls, &vec![0x01; length], ran))
}

/// What writing a page answers, and the page after it. Values that are not storable are refused with 20, after 19.
fn plain_writing(values: &FlatValues, page: &mut [u8]) -> u8 {
    let values = optional(values);
    let given = [(0x01, values.baud), (0x07, values.accelerometer), (0x08, values.gyroscope)];
    let refused = |(code, value): (u8, Option<u32>)| value.is_some_and(|value| !plain::storable(code, value));
    if page.len() != 64 {
        return plain::number::PAGE_LENGTH;
    }
    if given.into_iter().any(refused) {
        return plain::number::PAGE;
    }
    let byte = |value: u32| value as u8;
    page.copy_from_slice(&plain::write_page(&plain::Values {
        baud: values.baud,
        accelerometer: values.accelerometer.map(byte),
        gyroscope: values.gyroscope.map(byte),
        last_number: values.last_number,
    }));
    plain::number::DONE
}

fn write_one(calls: &impl Calls, values: FlatValues, length: usize, ran: &mut Ran) -> Outcome {
    let mut pages = [filled(length, 0x3D), filled(length, 0x3D), filled(length, 0x3D)];
    let number = plain_writing(&values, &mut pages[0]);
    ran.count(number);
    let written = calls.write_page(values, &mut pages[1]);
    let wrapped = calls.wrapped_write_values(&optional(&values), &mut pages[2]).map_err(Refusal::number);
    same("write_page", &written, &number)
        .and_then(|()| same("page", &pages[1], &pages[0]))
        .and_then(|()| same("wrapped write", &wrapped, &done_or(number, ())))
        .and_then(|()| same("wrapped page", &pages[2], &pages[0]))
        .map_err(|text| format!("{text}\n  {values:?}, page of {length} bytes"))
}

/// Each choice of storable values; others, with values beside a `has_` that is false; pages of other lengths.
pub fn write_all(calls: &impl Calls, rng: &mut Rng, ran: &mut Ran) -> Outcome {
    for values in all_values() {
        write_one(calls, records::values(&values), 64, ran)?;
    }
    for _ in 0..200_000 {
        let values = FlatValues {
            has_baud: rng.chance(1, 2),
            baud: generate::value(rng, 0x01),
            has_accelerometer: rng.chance(1, 2),
            accelerometer: generate::value(rng, 0x07),
            has_gyroscope: rng.chance(1, 2),
            gyroscope: generate::value(rng, 0x08),
            has_last_number: rng.chance(1, 2),
            last_number: numbered::kept(rng),
        };
        let length = if rng.chance(7, 8) { 64 } else { rng.below(130) };
        write_one(calls, values, length, ran)?;
    }
    Ok(())
}

/// A body of the saved or the factory page, both of any contents and length, in a room of any length.
pub fn copy_body(calls: &impl Calls, rng: &mut Rng, ran: &mut Ran) -> Outcome {
    let any = |rng: &mut Rng| if rng.chance(1, 2) { generate::page(rng) } else { numbered::page(rng) };
    let saved = any(rng);
    let factory = if rng.chance(1, 2) { plain::factory_page().to_vec() } else { any(rng) };
    let code = if rng.chance(1, 4) { 0x70 } else { generate::code(rng) };
    let length = if rng.chance(1, 8) { rng.below(80) } else { rng.below(8) };
    let mut rooms = [filled(length, 0x3D), filled(length, 0x3D), filled(length, 0x3D)];
    let expected = match plain::body(&saved, &factory, code) {
        (plain::number::DONE, body) => records::put(body, &mut rooms[0]),
        (refused, _) => records::written((refused, 0)),
    };
    ran.count(expected.number);
    let written = calls.copy_body(&saved, &factory, code, &mut rooms[1]);
    let wrapped = calls.wrapped_copy_body(&saved, &factory, code, &mut rooms[2]).map_err(Refusal::number);
    let answer = done_or(expected.number, expected.length);
    same("copy_body", &written, &expected)
        .and_then(|()| same("room", &rooms[1], &rooms[0]))
        .and_then(|()| same("wrapped body", &wrapped, &answer))
        .and_then(|()| same("wrapped room", &rooms[2], &rooms[0]))
        .map_err(|text| format!("{text}\n  code {code:02X}, saved {}, factory {}", hex(&saved), hex(&factory)))
}

/// The factory page in rooms of all lengths.
pub fn factory_page(calls: &impl Calls, ran: &mut Ran) -> Outcome {
    for length in 0..200 {
        let mut room = filled(length, 0x3D);
        let mut plain_room = room.clone();
        let expected = records::put(&plain::factory_page(), &mut plain_room);
        ran.count(expected.number);
        same("factory_page", &calls.factory_page(&mut room), &expected)?;
        same("factory page's room", &room, &plain_room)?;
    }
    same("wrapped factory page", &calls.wrapped_factory_page(), &plain::factory_page())
}
