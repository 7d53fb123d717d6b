//! Commands of several fields: each pair and triple of a set of fields, messages cut at every place, lists of feeds,
//! and one message against the separate messages of its fields.

use crate::calls::Calls;
use crate::feeding::{Given, Pair, Start};
use crate::group::{same, Outcome, Ran};
use crate::lists::{hex, run_or_shrink, Beside};
use crate::runs::cut_at_every_place;
use crate::singles;
use ketphiroj::Board;
use plain::generate::{self, fields, Rng};

/// Fields of type 02, right and wrong. The settings are not the factory's, so that a load or the factory value shows.
pub fn some_fields() -> Vec<Vec<u8>> {
    let mut all = Vec::new();
    for (code, values) in [(0x01, [9600, 921600]), (0x07, [1, 4]), (0x08, [1, 5])] {
        all.extend(values.map(|value| fields::setting(code, 1, value)));
        all.extend((2..=5).map(|function| vec![code, 1, function]));
    }
    // Values that are not usable, functions that are none, a size that is wrong, a save with two value bytes.
    all.extend([vec![0x07, 2, 1, 5], vec![0x08, 2, 1, 7]]);
    all.extend([vec![0x08, 1, 0], vec![0x08, 1, 6], vec![0x08, 1, 255], vec![0x07, 0]]);
    all.push(vec![0x07, 3, 3, 1, 1]);
    // Codes that are none of type 02.
    all.extend([vec![0x02, 0], vec![0x63, 0], vec![0x63, 2, 1, 1]]);
    all
}

/// Fields of type 01, right and wrong.
pub fn some_pings() -> Vec<Vec<u8>> {
    vec![vec![0x02, 0], vec![0x02, 1, 0], vec![0x01, 1, 2], vec![0x07, 1, 3], vec![0x63, 0]]
}

/// Each pair and triple of fields; four of one setting's functions; each count of each field; payloads that they do not
/// fill; rooms about the longest reply.
pub fn all(calls: &impl Calls, rng: &mut Rng, ran: &mut Ran) -> Outcome {
    for (kind, fields) in [(0x01, some_pings()), (0x02, some_fields())] {
        for first in &fields {
            for second in &fields {
                let pair = [&first[..], second].concat();
                singles::command(calls, rng, kind, &pair, ran)?;
                not_filled(calls, rng, kind, &pair, ran)?;
                for third in &fields {
                    singles::command(calls, rng, kind, &[&pair[..], third].concat(), ran)?;
                }
            }
            counts(calls, rng, kind, first, ran)?;
        }
    }
    four_functions(calls, rng, ran)?;
    rooms(calls, rng, ran)
}

/// One byte less, and one, two or three more: a code alone, or a size past the end.
fn not_filled(calls: &impl Calls, rng: &mut Rng, kind: u8, payload: &[u8], ran: &mut Ran) -> Outcome {
    let more: [&[u8]; 6] = [&[0x07], &[0x63], &[0x02], &[0x07, 1], &[0x63, 255], &[0x07, 2, 3]];
    for more in more {
        singles::command(calls, rng, kind, &[payload, more].concat(), ran)?;
        singles::command(calls, rng, kind, more, ran)?;
    }
    singles::command(calls, rng, kind, &payload[..payload.len() - 1], ran)
}

/// The same field once, twice, and as often as a payload has room, in its own type and in another.
fn counts(calls: &impl Calls, rng: &mut Rng, kind: u8, field: &[u8], ran: &mut Ran) -> Outcome {
    for count in 1..=255 / field.len() {
        for kind in [kind, 0x03] {
            singles::command(calls, rng, kind, &field.repeat(count), ran)?;
        }
    }
    Ok(())
}

/// Each row of four functions of one setting, function 1 with one of two values.
fn four_functions(calls: &impl Calls, rng: &mut Rng, ran: &mut Ran) -> Outcome {
    let all = some_fields();
    for setting in all[..18].chunks(6) {
        for place in 0..6usize.pow(4) {
            let digits = [place % 6, place / 6 % 6, place / 36 % 6, place / 216];
            let payload: Vec<u8> = digits.iter().flat_map(|&digit| setting[digit].clone()).collect();
            singles::command(calls, rng, 0x02, &payload, ran)?;
        }
    }
    Ok(())
}

/// A board that holds nothing, with any usable settings and any blank or sound page.
fn fresh(rng: &mut Rng) -> Pair {
    let page = generate::sound_page(rng);
    singles::holding_nothing(rng, &page)
}

/// Rooms of all lengths for the longest reply and for a short one.
fn rooms(calls: &impl Calls, rng: &mut Rng, ran: &mut Ran) -> Outcome {
    for payload in [[0x01, 1, 2].repeat(16), vec![0x07, 1, 3]] {
        let chunk = plain::message(0x02, &payload);
        for room in 0..=200 {
            singles::one(calls, &fresh(rng), Given::Feed { port: 0, chunk: &chunk, room }, ran)?;
        }
    }
    Ok(())
}

/// Two messages, one for each port, cut at every place. Short ones are compared with the reckoning too.
pub fn cut(calls: &impl Calls, rng: &mut Rng, ran: &mut Ran) -> Outcome {
    let page = generate::sound_page(rng);
    let streams = [(); 2].map(|()| match rng.below(3) {
        0 => fields::three_settings(rng),
        1 => [generate::noise(rng), fields::several(rng)].concat(),
        _ => fields::several(rng),
    });
    let short = streams.iter().all(|stream| stream.len() <= 40);
    let beside = if short { Beside::Reckoning } else { Beside::Nothing };
    cut_at_every_place(calls, Start { profile: generate::profile(rng), page: &page }, &streams, beside, ran)
}

/// Lists of messages of several fields, with restarts; some beside the reckoning or the wrapper.
pub fn lists(calls: &impl Calls, rng: &mut Rng, ran: &mut Ran) -> Outcome {
    let page = generate::sound_page(rng);
    let (beside, pieces) = match rng.below(8) {
        // The reckoning goes through all bytes again for each byte.
        0 => (Beside::Reckoning, 2),
        1 | 2 => (Beside::Wrapper, 6),
        _ => (Beside::Nothing, 8),
    };
    let list = fields::steps_with_fields(rng, &page, pieces);
    run_or_shrink(calls, Start { profile: generate::profile(rng), page: &page }, &list, beside, ran)
}

/// What a feed of one good message leaves, and the payload of its reply.
struct Left {
    board: Board,
    page: Vec<u8>,
    saved: bool,
    rows: Vec<u8>,
}

fn feed_one(calls: &impl Calls, board: Board, page: &[u8], message: &[u8], ran: &mut Ran) -> Result<Left, String> {
    let mut page = page.to_vec();
    let mut room = vec![0; Board::REPLY];
    let fed = calls.feed(0, board, message, &mut room, &mut page);
    ran.count(fed.number);
    same("number and taken", &(fed.number, fed.taken), &(0, message.len()))?;
    let rows = room[4..4 + usize::from(room[3])].to_vec();
    Ok(Left { board: fed.board, page, saved: fed.saved, rows })
}

/// The request's own sentences, of the library alone: a message of several fields leaves the settings and the page that
/// separate messages of the same type would leave, and its reply carries their replies' fields.
pub fn separate(calls: &impl Calls, rng: &mut Rng, ran: &mut Ran) -> Outcome {
    let kind = rng.pick(&[0x01, 0x02, 0x02, 0x02]);
    let count = rng.between(1, 16);
    let payload = fields::row(rng, kind, count);
    let start = fresh(rng);
    one_and_many(calls, &start, kind, &payload, ran)
        .map_err(|text| format!("{text}\n  type {kind:02X}, payload {}, page {}", hex(&payload), hex(&start.page)))
}

fn one_and_many(calls: &impl Calls, start: &Pair, kind: u8, payload: &[u8], ran: &mut Ran) -> Outcome {
    let one = feed_one(calls, start.board, &start.page, &plain::message(kind, payload), ran)?;
    let mut many = Left { board: start.board, page: start.page.clone(), saved: false, rows: Vec::new() };
    let mut rest = payload;
    while !rest.is_empty() {
        let (field, after) = rest.split_at(2 + usize::from(rest[1]));
        let left = feed_one(calls, many.board, &many.page, &plain::message(kind, field), ran)?;
        many = Left { saved: many.saved | left.saved, rows: [many.rows, left.rows].concat(), ..left };
        rest = after;
    }
    same("rows of one message and of separate ones", &one.rows, &many.rows)?;
    same("mark of one message and of separate ones", &one.saved, &many.saved)?;
    same("page of one message and of separate ones", &one.page, &many.page)?;
    same("settings of one message and of separate ones", &one.board.settings, &many.board.settings)
}
