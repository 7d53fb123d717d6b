//! Read-only boards: each command on each port, hostile lists on port 1, two runs of which port 0 sees the same, and starts in
//! both profiles.

use crate::calls::Calls;
use crate::feeding::{self, same_bytes, Given, Start};
use crate::fields::{some_fields, some_pings};
use crate::group::{same, Outcome, Ran};
use crate::in_place;
use crate::lists::{or_shrink, run_or_shrink, Beside};
use crate::records;
use crate::singles::{self, holding_nothing_in};
use ketphiroj::{Board, Port, Settings, Tally};
use plain::generate::numbered::{self, numbered};
use plain::generate::readonly::{self, Run, Turn};
use plain::generate::{self, silences, Rng, Step};
use plain::{Profile, Values};

/// The number that a page keeps, where it keeps one.
const LAST: u32 = 0x1FF;

/// One message, fed whole to port 1 of a read-only board that holds nothing, to port 0 of one, and to port 1 of a full one, on
/// pages with a number and without.
fn feed(calls: &impl Calls, rng: &mut Rng, message: &[u8], ran: &mut Ran) -> Outcome {
    for (profile, port) in [(Profile::ReadOnly, 1), (Profile::ReadOnly, 0), (Profile::Full, 1)] {
        let last_number = rng.pick(&[None, Some(LAST)]);
        let page = plain::write_page(&Values { last_number, ..generate::values(rng) });
        let pair = holding_nothing_in(rng, profile, &page);
        singles::one(calls, &pair, Given::Feed { port, chunk: message, room: Board::REPLY }, ran)?;
    }
    Ok(())
}

/// A good message of type 7C with this behind a number that is fresh, equal, stale, or the largest; and a damaged one.
fn inside(calls: &impl Calls, rng: &mut Rng, inner: &[u8], ran: &mut Ran) -> Outcome {
    let message = |number: u32| plain::message(0x7C, &[&number.to_be_bytes()[..], inner].concat());
    for number in [LAST + 1, LAST, LAST - 1, u32::MAX] {
        feed(calls, rng, &message(number), ran)?;
    }
    let mut damaged = message(LAST + 1);
    let end = damaged.len();
    damaged[end - rng.between(1, 2)] ^= 1 << rng.below(8);
    feed(calls, rng, &damaged, ran)
}

/// Each code with functions about those there are and values of each size; fields of size 0; each pair of fields, payloads that
/// they do not fill, and each count of one; the same behind numbers, and payloads of type 7C of each length and inner type.
pub fn commands(calls: &impl Calls, rng: &mut Rng, ran: &mut Ran) -> Outcome {
    for kind in 0..=3 {
        for code in [0x00, 0x01, 0x02, 0x07, 0x08, 0x63, 0x70] {
            feed(calls, rng, &plain::message(kind, &[code, 0]), ran)?;
            for function in (0..=7).chain([0x81, 0xFF]) {
                functions(calls, rng, kind, [code, function], ran)?;
            }
        }
    }
    for (kind, fields) in [(0x01, some_pings()), (0x02, some_fields())] {
        for first in &fields {
            for second in &fields {
                several(calls, rng, kind, &[&first[..], second].concat(), ran)?;
            }
            for count in 1..=numbered::MOST_INNER / first.len() {
                feed(calls, rng, &plain::message(kind, &first.repeat(count)), ran)?;
            }
        }
    }
    numbered_commands(calls, rng, ran)
}

fn functions(calls: &impl Calls, rng: &mut Rng, kind: u8, [code, function]: [u8; 2], ran: &mut Ran) -> Outcome {
    for size in 0..=6 {
        let value = [0x00, 0x01, 0xC2, 0x00, 0x02, 0x02];
        let field = [&[code, 1 + size as u8, function], &value[..size]].concat();
        feed(calls, rng, &plain::message(kind, &field), ran)?;
        feed(calls, rng, &numbered(LAST + 1, kind, &field), ran)?;
    }
    (0..=9).try_for_each(|value| feed(calls, rng, &plain::message(kind, &[code, 2, function, value]), ran))
}

fn several(calls: &impl Calls, rng: &mut Rng, kind: u8, fields: &[u8], ran: &mut Ran) -> Outcome {
    feed(calls, rng, &plain::message(kind, fields), ran)?;
    feed(calls, rng, &plain::message(kind, &[fields, &[0x07]].concat()), ran)?;
    feed(calls, rng, &numbered(LAST + 1, kind, fields), ran)
}

fn numbered_commands(calls: &impl Calls, rng: &mut Rng, ran: &mut Ran) -> Outcome {
    let payload = [0x12, 0x00, 0x02, 0x00, 0x02, 0x07, 0x02, 0x01, 0x03, 0x08, 0x01, 0x03, 0x63, 0x00, 0x01, 0x01];
    (0..=16).try_for_each(|length| feed(calls, rng, &plain::message(0x7C, &payload[..length]), ran))?;
    for kind in 0..=255 {
        for fields in
            [&[][..], &[0x02, 0], &[0x07, 2, 1, 4], &[0x08, 1, 2], &[0x08, 1, 3], &[0x07], &[0x08, 1, 2, 0x07, 1, 3]]
        {
            inside(calls, rng, &[&[kind], fields].concat(), ran)?;
        }
    }
    Ok(())
}

/// Hostile lists of feeds, silences, drained or not, and restarts of a read-only board; some beside the reckoning or the wrapper.
pub fn lists(calls: &impl Calls, rng: &mut Rng, ran: &mut Ran) -> Outcome {
    let page = silences::page(rng);
    let (beside, pieces) = match rng.below(8) {
        // The reckoning goes through all bytes again for each byte.
        0 => (Beside::Reckoning, 3),
        1 | 2 => (Beside::Wrapper, 6),
        _ => (Beside::Nothing, 10),
    };
    let pieces = rng.between(1, pieces);
    let list = readonly::history(rng, &page, pieces);
    run_or_shrink(calls, Start { profile: Profile::ReadOnly, page: &page }, &list, beside, ran)
}

/// What port 0 sees after a call of its own: the answer, the room, its port and totals, the working values and the page.
#[derive(Debug, PartialEq, Eq)]
struct Seen {
    answer: (u8, usize, usize, u8, bool),
    room: Vec<u8>,
    port: Port,
    tally: Tally,
    settings: Settings,
    page: Vec<u8>,
}

/// What port 0 sees after each of its calls of the library.
fn seen(calls: &impl Calls, page: &[u8], list: &[Step], ran: &mut Ran) -> Result<Vec<Seen>, String> {
    let (mut board, mut page, mut all) = (calls.start(true, page).board, page.to_vec(), Vec::new());
    for step in list {
        let given = Given::of(step).ok_or("two runs are from one start")?;
        let mut room = given.room();
        let fed = given.answer(calls, board, &mut room, &mut page);
        ran.count(fed.number);
        board = fed.board;
        if step.port_and_room().is_some_and(|(port, _)| port == 0) {
            let (port, tally, settings, page) = (board.first, board.tally0, board.settings, page.clone());
            let answer = (fed.number, fed.taken, fed.skipped, fed.error, fed.saved);
            all.push(Seen { answer, room, port, tally, settings, page });
        }
    }
    Ok(all)
}

/// The same of the plain reading.
fn plain_seen(profile: Profile, page: &[u8], list: &[Step]) -> Result<Vec<Seen>, String> {
    let (mut board, mut page, mut all) = (plain::start(profile, page).1, page.to_vec(), Vec::new());
    for step in list {
        let mut room = Given::of(step).ok_or("two runs are from one start")?.room();
        let fed = step.answer(&board, &mut room, &mut page).ok_or("a restart is no call")?;
        board = fed.board;
        if step.port_and_room().is_some_and(|(port, _)| port == 0) {
            let Board { first: port, tally0: tally, settings, .. } = records::board(&board);
            let (answer, page) = ((fed.number, fed.taken, fed.skipped, fed.error, fed.saved), page.clone());
            all.push(Seen { answer, room, port, tally, settings, page });
        }
    }
    Ok(all)
}

/// Two rows of what port 0 sees; a difference is told by its part.
fn same_seen(what: &str, first: &[Seen], second: &[Seen]) -> Outcome {
    same(&format!("{what}: calls of port 0"), &first.len(), &second.len())?;
    for (place, (one, other)) in first.iter().zip(second).enumerate() {
        let part = |part: &str| format!("{what}: {part} of call {place} of port 0");
        same(&part("number, taken, skipped, error and mark"), &one.answer, &other.answer)?;
        same_bytes(&part("room"), &one.room, &other.room)?;
        same(&part("held"), &one.port.held, &other.port.held)?;
        same_bytes(&part("bytes"), &one.port.bytes, &other.port.bytes)?;
        same(&part("totals"), &one.tally, &other.tally)?;
        same(&part("settings"), &one.settings, &other.settings)?;
        same_bytes(&part("page"), &one.page, &other.page)?;
    }
    Ok(())
}

/// 02-12.3, 02-12.4: two runs from one start of a read-only board, with the same calls of port 0, of the library alone; and one
/// of them is what the plain reading gives. A start in sixteen is on a page of any kind, and may be refused.
pub fn two_runs(calls: &impl Calls, rng: &mut Rng, ran: &mut Ran) -> Outcome {
    let page = silences::page(rng);
    let pieces = rng.between(1, 6);
    let turns = readonly::two_runs(rng, &page, pieces);
    let page = if rng.chance(1, 16) { generate::page(rng) } else { page.to_vec() };
    let start = Start { profile: Profile::ReadOnly, page: &page };
    or_shrink(start, &turns, ran, |turns, ran| both_runs(calls, start, turns, ran))
}

fn both_runs(calls: &impl Calls, start: Start, turns: &[Turn], ran: &mut Ran) -> Outcome {
    let (first, second) = (readonly::calls_of(turns, Run::First), readonly::calls_of(turns, Run::Second));
    let first_seen = seen(calls, start.page, &first, ran)?;
    same_seen("two runs", &first_seen, &seen(calls, start.page, &second, ran)?)?;
    let plain = plain_seen(calls.plain_profile(start.profile), start.page, &first)?;
    same_seen("library and plain", &first_seen, &plain)
}

/// Starts in each profile, by value, in place and by the wrapper, on a page of any kind, sound or refused, of a board that was of
/// either profile before; in place also of arrays that are none. Then two boards, one of each profile, started and called in turns.
pub fn starts(calls: &impl Calls, rng: &mut Rng, ran: &mut Ran) -> Outcome {
    let page = if rng.chance(1, 2) { generate::page(rng) } else { numbered::page(rng) };
    for profile in Profile::ALL {
        let given = Start { profile, page: &page };
        singles::start(calls, given, ran)?;
        for before in Profile::ALL {
            let board = plain::Board { profile: before, ..generate::board(rng) };
            in_place::start_board(calls, &board, given, ran)?;
        }
        let length = rng.pick(&[0, Port::ROOM - 1, Port::ROOM + 1]);
        let mut arrays = [rng.bytes(length), rng.bytes(Port::ROOM)];
        arrays.rotate_left(rng.below(2));
        in_place::start(calls, arrays, given, ran)?;
    }
    two_boards(calls, rng, ran)
}

/// A full and a read-only board, each with a page of its own, started in any order and called in turns.
fn two_boards(calls: &impl Calls, rng: &mut Rng, ran: &mut Ran) -> Outcome {
    let mut profiles = Profile::ALL;
    profiles.rotate_left(rng.below(2));
    let page = silences::page(rng);
    let started = profiles.map(|profile| feeding::start(calls, Start { profile, page: &page }));
    let [(_, mut first), (_, mut second)] = match started {
        [Ok(first), Ok(second)] => [first, second],
        [Err(text), _] | [_, Err(text)] => return Err(text),
    };
    for step in readonly::history(rng, &page, 2) {
        let Some(given) = Given::of(&step) else { continue };
        for pair in [&mut first, &mut second] {
            let profile = pair.plain.profile;
            let (fed, _) =
                feeding::call(calls, pair, given).map_err(|text| format!("{profile:?} board: {text}\n  {step}"))?;
            ran.count(fed.number);
        }
    }
    Ok(())
}
