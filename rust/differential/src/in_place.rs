//! Starts in place, of boards and arrays of any contents, on pages of all kinds.

use crate::calls::Calls;
use crate::feeding::{same_board, same_bytes, Start};
use crate::group::{same, Outcome, Ran};
use crate::lists::hex;
use crate::pages::done_or;
use crate::records;
use crate::singles::all_values;
use ketphiroj::{Port, Refusal};
use plain::generate::{self, numbered, Rng};

/// A start of two arrays of any contents and lengths, on a page of any contents and length.
pub fn start(calls: &impl Calls, given: [Vec<u8>; 2], Start { profile, page }: Start, ran: &mut Ran) -> Outcome {
    let [mut plain_first, mut plain_second] = given.clone();
    let [mut first, mut second] = given;
    let page_given = page.to_vec();
    let started = calls.start_in_place(records::readonly(profile), &mut first, &mut second, page);
    let plain = plain::start_in_place(profile, &mut plain_first, &mut plain_second, &page_given);
    ran.count(plain.number);
    same("start in place", &started, &records::started_in_place(plain))
        .and_then(|()| same_bytes("bytes of port 0", &first, &plain_first))
        .and_then(|()| same_bytes("bytes of port 1", &second, &plain_second))
        .and_then(|()| same("page", page, &page_given))
        .map_err(|text| {
            let (first, second) = (first.len(), second.len());
            format!("{text}\n  {profile:?}, arrays of {first} and {second} bytes, page {}", hex(&page_given))
        })
}

/// The wrapper's start of a board of any contents: the board of a start by value, also where the page is refused.
fn start_wrapped(calls: &impl Calls, board: &plain::Board, Start { profile, page }: Start) -> Outcome {
    let mut started = records::board(board);
    let asked = records::profile(profile);
    let answer = calls.wrapped_start_in_place(&mut started, asked, page).map_err(Refusal::number);
    let (number, plain) = plain::start(profile, page);
    same("wrapped start in place", &answer, &done_or(number, ()))
        .and_then(|()| same_board(&started, &records::board(&plain)))
        .and_then(|()| same("profile", &calls.wrapped_profile(&started), &asked))
        .map_err(|text| format!("wrapped: {text}\n  {profile:?}, page {}", hex(page)))
}

/// Both, of a board of any contents, in any profile.
pub fn start_any_board(calls: &impl Calls, rng: &mut Rng, page: &[u8], ran: &mut Ran) -> Outcome {
    let profile = generate::profile(rng);
    start_board(calls, &generate::board(rng), Start { profile, page }, ran)
}

/// Both, of this board, whatever it was.
pub fn start_board(calls: &impl Calls, board: &plain::Board, given: Start, ran: &mut Ran) -> Outcome {
    let arrays = [board.ports[0].bytes.to_vec(), board.ports[1].bytes.to_vec()];
    start(calls, arrays, given, ran)?;
    start_wrapped(calls, board, given)
}

/// An array that is a port's, or one that is nearly as long, or of any length.
fn array(rng: &mut Rng) -> Vec<u8> {
    let length = match rng.below(4) {
        0 => rng.pick(&[0, 1, 64, Port::ROOM - 1, Port::ROOM + 1, Port::ROOM + 8, 2 * Port::ROOM, 65536 + Port::ROOM]),
        1 => rng.below(600),
        _ => Port::ROOM,
    };
    rng.bytes(length)
}

fn page(rng: &mut Rng) -> Vec<u8> {
    if rng.chance(1, 2) {
        generate::page(rng)
    } else {
        numbered::page(rng)
    }
}

/// On each sound page, and on one that differs from it in one byte.
fn sound_pages(calls: &impl Calls, rng: &mut Rng, ran: &mut Ran) -> Outcome {
    for values in all_values() {
        let mut page = plain::write_page(&values);
        start_any_board(calls, rng, &page, ran)?;
        let at = rng.below(64);
        page[at] = rng.byte();
        start_any_board(calls, rng, &page, ran)?;
    }
    Ok(())
}

/// On pages of all kinds: boards, and arrays of which one or both may not be 260 bytes.
fn any_pages(calls: &impl Calls, rng: &mut Rng, ran: &mut Ran) -> Outcome {
    for _ in 0..100_000 {
        let page = page(rng);
        start_any_board(calls, rng, &page, ran)?;
        start(calls, [array(rng), array(rng)], Start { profile: generate::profile(rng), page: &page }, ran)?;
    }
    Ok(())
}

/// Pages of FF of each length, and arrays of each length beside one of 260 bytes, on either side.
fn lengths(calls: &impl Calls, rng: &mut Rng, ran: &mut Ran) -> Outcome {
    for length in 0..3 * Port::ROOM {
        start_any_board(calls, rng, &vec![0xFF; length], ran)?;
        let page = page(rng);
        let given = Start { profile: generate::profile(rng), page: &page };
        start(calls, [rng.bytes(length), rng.bytes(Port::ROOM)], given, ran)?;
        start(calls, [rng.bytes(Port::ROOM), rng.bytes(length)], given, ran)?;
    }
    Ok(())
}

pub fn all(calls: &impl Calls, rng: &mut Rng, ran: &mut Ran) -> Outcome {
    sound_pages(calls, rng, ran)?;
    any_pages(calls, rng, ran)?;
    lengths(calls, rng, ran)
}
