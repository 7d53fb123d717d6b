//! Numbered commands: each error in its order, numbers about the one that the page keeps, commands that have none, lists
//! of feeds and restarts over one page, and the promise of the request on the library alone.

use crate::calls::{Calls, NumberedGiven};
use crate::feeding::{Given, Start};
use crate::fields::{some_fields, some_pings};
use crate::group::{same, Outcome, Ran};
use crate::lists::{hex, run_or_shrink, Beside};
use crate::messages::{wrapped, writing};
use crate::records;
use crate::rows::rows;
use crate::runs::cut_at_every_place;
use crate::singles::{holding_nothing, one};
use ketphiroj::Board;
use plain::generate::numbered::{self, numbered};
use plain::generate::{self, fields, Rng, Step};
use plain::{Profile, Values};

/// One message, fed whole to each port of a board that holds nothing, on a page that keeps this number.
fn feed(calls: &impl Calls, rng: &mut Rng, last_number: Option<u32>, message: &[u8], ran: &mut Ran) -> Outcome {
    let values = Values { last_number, ..generate::values(rng) };
    for port in [0, 1] {
        let pair = holding_nothing(rng, &plain::write_page(&values));
        one(calls, &pair, Given::Feed { port, chunk: message, room: Board::REPLY }, ran)?;
    }
    Ok(())
}

/// A good message of type 7C with this payload behind the number, and a damaged one, on a page that keeps a number: the
/// number of the message is the next, that one, and the one before; and on a page without one.
fn inside(calls: &impl Calls, rng: &mut Rng, inner: &[u8], ran: &mut Ran) -> Outcome {
    let last = rng.pick(&[0x1FF, 0xFFFF, 0x1234_5678, 0xFFFF_FFFE]);
    let message = |number: u32| plain::message(0x7C, &[&number.to_be_bytes()[..], inner].concat());
    for number in [last + 1, last, last - 1] {
        feed(calls, rng, Some(last), &message(number), ran)?;
    }
    feed(calls, rng, None, &message(last), ran)?;
    for number in [last + 1, last] {
        let mut damaged = message(number);
        let end = damaged.len();
        damaged[end - rng.between(1, 2)] ^= 1 << rng.below(8);
        feed(calls, rng, Some(last), &damaged, ran)?;
    }
    Ok(())
}

/// Each number at an end against each, and those about it; payloads of each length; each inner type; each pair of inner
/// fields and each count of one; payloads that they do not fill.
pub fn commands(calls: &impl Calls, rng: &mut Rng, ran: &mut Ran) -> Outcome {
    numbers(calls, rng, ran)?;
    for length in 0..=16 {
        let payload = [0x12, 0x00, 0x02, 0x00, 0x02, 0x07, 0x02, 0x01, 0x03, 0x08, 0x01, 0x03, 0x63, 0x00, 0x01, 0x01];
        for last in [None, Some(0), Some(0x1200_01FF), Some(0x1200_0200), Some(u32::MAX)] {
            feed(calls, rng, last, &plain::message(0x7C, &payload[..length]), ran)?;
        }
    }
    for kind in 0..=255 {
        for fields in
            [&[][..], &[0x02, 0], &[0x07, 2, 1, 4], &[0x08, 1, 3], &[0x07], &[0x00, 0x00, 0x03, 0x00, 0x01, 0x02]]
        {
            inside(calls, rng, &[&[kind], fields].concat(), ran)?;
        }
    }
    for (kind, fields) in [(0x01, some_pings()), (0x02, some_fields())] {
        for first in &fields {
            for second in &fields {
                inside(calls, rng, &[&[kind], &first[..], second].concat(), ran)?;
                inside(calls, rng, &[&[kind], &first[..], second, &[0x07]].concat(), ran)?;
            }
            for count in 1..=numbered::MOST_INNER / first.len() {
                inside(calls, rng, &[&[kind], &first.repeat(count)[..]].concat(), ran)?;
            }
        }
    }
    Ok(())
}

/// Each number at an end, and those beside it, to a page that keeps each of them; a use, a save, a Ping and a command
/// that fails.
fn numbers(calls: &impl Calls, rng: &mut Rng, ran: &mut Ran) -> Outcome {
    let inner: [(u8, &[u8]); 4] =
        [(0x02, &[0x07, 2, 1, 1]), (0x02, &[0x08, 1, 3]), (0x01, &[0x02, 0]), (0x02, &[0x63, 0])];
    for end in numbered::ENDS {
        for number in [end.wrapping_sub(1), end, end.wrapping_add(1), end.swap_bytes(), end ^ 0x1_0000] {
            for last in std::iter::once(None).chain(numbered::ENDS.map(Some)) {
                let (kind, fields) = rng.pick(&inner);
                feed(calls, rng, last, &numbered(number, kind, fields), ran)?;
            }
        }
    }
    for _ in 0..20_000 {
        let last = numbered::kept(rng);
        let number = numbered::number(rng, Some(last));
        let (kind, fields) = rng.pick(&inner);
        feed(calls, rng, Some(last), &numbered(number, kind, fields), ran)?;
    }
    Ok(())
}

/// Commands without a number, on pages with one and without: each code of the board with each function and values of
/// each size; fields of size 0 and of unknown codes; each pair of fields.
pub fn unnumbered(calls: &impl Calls, rng: &mut Rng, ran: &mut Ran) -> Outcome {
    let mut give = |kind: u8, payload: &[u8]| {
        let last = rng.pick(&numbered::ENDS);
        feed(calls, rng, Some(last), &plain::message(kind, payload), ran)?;
        feed(calls, rng, None, &plain::message(kind, payload), ran)
    };
    for kind in 0..=3 {
        for code in [0x00, 0x01, 0x02, 0x07, 0x08, 0x63, 0x70] {
            give(kind, &[code, 0])?;
            for function in 0..=255 {
                for size in 0..=6 {
                    let value = [0x00, 0x01, 0xC2, 0x00, 0x02, 0x02];
                    give(kind, &[&[code, 1 + size as u8, function], &value[..size]].concat())?;
                }
                give(kind, &[code, 2, function, 0x02])?;
            }
        }
    }
    for (kind, fields) in [(0x01, some_pings()), (0x02, some_fields())] {
        for first in &fields {
            for second in &fields {
                give(kind, &[&first[..], second].concat())?;
                give(kind, &[&first[..], second, &[0x07]].concat())?;
            }
            for count in 1..=255 / first.len() {
                give(kind, &first.repeat(count))?;
            }
        }
    }
    Ok(())
}

/// Histories: lists of feeds and restarts over one page; some beside the reckoning or the wrapper.
pub fn histories(calls: &impl Calls, rng: &mut Rng, ran: &mut Ran) -> Outcome {
    let page = if rng.chance(1, 3) { generate::sound_page(rng) } else { numbered::sound_page(rng) };
    let (beside, pieces) = match rng.below(8) {
        // The reckoning goes through all bytes again for each byte.
        0 => (Beside::Reckoning, 4),
        1 | 2 => (Beside::Wrapper, 6),
        _ => (Beside::Nothing, 10),
    };
    let pieces = rng.between(1, pieces);
    let start = Start { profile: generate::profile(rng), page: &page };
    let list = numbered::history(rng, start.profile, &page, pieces);
    run_or_shrink(calls, start, &list, beside, ran)
}

/// Two streams of a numbered command and another piece, cut at every place. Short ones are compared with the reckoning
/// too.
pub fn cut(calls: &impl Calls, rng: &mut Rng, ran: &mut Ran) -> Outcome {
    let page = numbered::sound_page(rng);
    let last = plain::values(&page).and_then(|values| values.last_number);
    let streams = [(); 2].map(|()| {
        let command = numbered::command(rng, last);
        if rng.chance(1, 3) {
            return [command, generate::accepted_command(rng)].concat();
        }
        command
    });
    let short = streams.iter().all(|stream| stream.len() <= 40);
    let beside = if short { Beside::Reckoning } else { Beside::Nothing };
    cut_at_every_place(calls, Start { profile: generate::profile(rng), page: &page }, &streams, beside, ran)
}

/// A board of the library and its page, without the plain reading beside it.
pub struct Alone<'a, C> {
    pub calls: &'a C,
    pub board: Board,
    pub page: Vec<u8>,
}

impl<C: Calls> Alone<'_, C> {
    pub fn start<'a>(calls: &'a C, Start { profile, page }: Start) -> Alone<'a, C> {
        Alone { calls, board: calls.start(records::readonly(profile), page).board, page: page.to_vec() }
    }

    pub fn restart(&mut self, profile: Profile) -> Outcome {
        let started = self.calls.start(records::readonly(profile), &self.page);
        same("number of a restart", &started.number, &0)?;
        self.board = started.board;
        Ok(())
    }

    /// Feeds one good message whole. Gives the error of the reply's first row.
    fn error(&mut self, port: u8, message: &[u8], ran: &mut Ran) -> Result<u8, String> {
        let mut room = vec![0; Board::REPLY];
        let fed = self.calls.feed(port, self.board, message, &mut room, &mut self.page);
        ran.count(fed.number);
        same("number and taken", &(fed.number, fed.taken), &(0, message.len()))?;
        same("error told and in the reply", &fed.error, &room[7])?;
        self.board = fed.board;
        Ok(fed.error)
    }
}

/// The request's own purpose, of the library alone: a day of numbered commands, whatever stands in them, on both ports, with
/// restarts in either profile; then each of them is sent again, in any order, on either port and behind any number of restarts.
/// Each is refused with 5, or on port 1 of a read-only board with 7, and page and settings are as a restart leaves them.
pub fn replays(calls: &impl Calls, rng: &mut Rng, ran: &mut Ran) -> Outcome {
    let page = if rng.chance(1, 2) { vec![0xFF; 64] } else { numbered::sound_page(rng).to_vec() };
    let mut alone = Alone::start(calls, Start { profile: generate::profile(rng), page: &page });
    let day = day(rng, plain::values(&alone.page).and_then(|values| values.last_number));
    let told = |text: String| {
        format!("{text}\n  of the commands {}", day.iter().map(|one| hex(one)).collect::<Vec<_>>().join(" "))
    };
    for message in &day {
        // Port 1 of a read-only board takes no numbered command.
        let port = if alone.board.readonly { 0 } else { rng.below(2) as u8 };
        let error = alone.error(port, message, ran).map_err(told)?;
        same("a fresh number is refused", &(error == 5), &false).map_err(told)?;
        if rng.chance(1, 8) {
            alone.restart(generate::profile(rng))?;
        }
    }
    alone.restart(generate::profile(rng))?;
    let (settings, page) = (alone.board.settings, alone.page.clone());
    for _ in 0..2 * day.len() {
        if rng.chance(1, 4) {
            alone.restart(generate::profile(rng))?;
        }
        let (message, port) = (&day[rng.below(day.len())], rng.below(2) as u8);
        let refused = if alone.board.readonly && port == 1 { 7 } else { 5 };
        same("error of a replay", &alone.error(port, message, ran)?, &refused).map_err(told)?;
        same("page after a replay", &alone.page, &page).map_err(told)?;
        same("settings after a replay", &alone.board.settings, &settings).map_err(told)?;
    }
    Ok(())
}

/// Up to twelve commands with numbers that grow from this one on; fewer where they come to an end.
fn day(rng: &mut Rng, last: Option<u32>) -> Vec<Vec<u8>> {
    let mut day = Vec::new();
    let mut next = last.map_or(Some(numbered::kept(rng)), |last| last.checked_add(1));
    while let Some(number) = next.filter(|_| day.len() < 12) {
        let kind = numbered::inner_kind(rng);
        day.push(numbered(number, kind, &numbered::inner_fields(rng, kind)));
        let step = rng.pick(&[1, 1, 1, 2, 0x100, 0x1_0000, 0x100_0000]);
        next = number.checked_add(step);
    }
    day
}

/// 02-03.10 on the library alone: over a history the numbers that it accepts, told by its replies, grow.
pub fn grow(calls: &impl Calls, rng: &mut Rng, ran: &mut Ran) -> Outcome {
    let page = numbered::sound_page(rng);
    let pieces = rng.between(2, 12);
    let start = Start { profile: generate::profile(rng), page: &page };
    let list = numbered::history(rng, start.profile, &page, pieces);
    growing(calls, start, &list, ran)
}

/// The numbers that the library accepts over this list grow.
pub fn growing(calls: &impl Calls, start: Start, list: &[Step], ran: &mut Ran) -> Outcome {
    let mut last = plain::values(start.page).and_then(|values| values.last_number);
    let mut alone = Alone::start(calls, start);
    for step in list {
        if let Step::Restart(profile) = *step {
            alone.restart(profile)?;
            continue;
        }
        let given = Given::of(step).ok_or("a restart is no call")?;
        let mut room = given.room();
        let unread = unread(&alone.board, step);
        let fed = given.answer(calls, alone.board, &mut room, &mut alone.page);
        ran.count(fed.number);
        alone.board = fed.board;
        let refused = |error: &u8| *error == 5 || *error == 7;
        if fed.number == 0 && room.get(2) == Some(&0x7C) && room.get(7).is_some_and(|error| !refused(error)) {
            if let Some(number) = number_in(&unread, given) {
                same("the number accepted is larger than the last", &last.is_none_or(|last| number > last), &true)
                    .map_err(|text| format!("{text}\n  {last:08X?}, then {number:08X}, in {}", hex(&unread)))?;
                last = Some(number);
            }
        }
    }
    Ok(())
}

/// What the port of a step holds, and behind it what the step offers; nothing where there is no such port.
pub fn unread(board: &Board, step: &Step) -> Vec<u8> {
    let named = match step.port_and_room() {
        Some((0, _)) => &board.first,
        Some((1, _)) => &board.second,
        _ => return Vec::new(),
    };
    [&named.bytes[..named.held], step.chunk()].concat()
}

/// The number of the first message that the scan finds in these bytes, if it is good and has one.
fn number_in(bytes: &[u8], given: Given) -> Option<u32> {
    let marks: &[usize] = if matches!(given, Given::Silence { .. }) { &[bytes.len()] } else { &[] };
    let (place, length) = plain::scan_marked(bytes, marks).iter().find_map(plain::Event::message)?;
    let message = &bytes[place..place + length];
    let has_number = plain::sums_right(message) && message[3] >= 5;
    has_number.then(|| u32::from_be_bytes(message[4..8].try_into().expect("four bytes")))
}

/// Rows with errors and values, right and wrong.
const ROWS: [&[u8]; 11] = [
    &[0x80, 2, 7, 5],
    &[0x80, 2, 8, 6],
    &[0x80, 2, 8, 7],
    &[0x80, 2, 8, 7, 8, 1, 3],
    &[0x80, 2, 8, 0, 8, 1, 6],
    &[0x80, 2, 8, 0, 8, 1, 7],
    &[0x80, 2, 8, 6, 8, 1, 6],
    &[0x80, 2, 7, 0, 7, 1, 2],
    &[0x80, 2, 1, 0, 1, 4, 0, 0, 0x25, 0x80],
    &[0x80, 2, 0x70, 0, 0x70, 4, 0, 0, 0, 1],
    &[0x80, 2, 7, 5, 7, 1, 2],
];

/// Replies of type 7C: each count of rows with and without values, each error, and replies of all kinds, right, wrong and
/// damaged.
pub fn replies(calls: &impl Calls, rng: &mut Rng, ran: &mut Ran) -> Outcome {
    for count in 0..=18 {
        for row in ROWS {
            rows(calls, &plain::message(0x7C, &row.repeat(count)), ran)?;
        }
    }
    for error in 0..=255 {
        for kind in [0x01, 0x02, 0x03, 0x7C] {
            rows(calls, &plain::message(kind, &[0x80, 2, 8, 0, 0x80, 2, 7, error]), ran)?;
            rows(calls, &plain::message(kind, &[0x80, 2, 7, error]), ran)?;
        }
    }
    for _ in 0..100_000 {
        let mut message = match rng.below(4) {
            0 => {
                let values = numbered::values(rng);
                let received = numbered::command(rng, values.last_number);
                let (profile, port) = (generate::profile(rng), rng.below(2) as u8);
                plain::handle(profile, port, &received, generate::usable_settings(rng), values).reply
            }
            _ => fields::reply_of_kind(rng, 0x7C),
        };
        if rng.chance(1, 16) {
            message = generate::damage(rng, message);
        }
        rows(calls, &message, ran)?;
    }
    Ok(())
}

fn write_one(calls: &impl Calls, given: NumberedGiven, room: usize, ran: &mut Ran) -> Outcome {
    let NumberedGiven { number, code, function, value } = given;
    let written = writing(
        "write_numbered",
        room,
        |room| calls.write_numbered(&given, room),
        |room| records::written(plain::write_numbered(number, code, function, value, room)),
        ran,
    )
    .map_err(|text| format!("{text}\n  {given:02X?}, room {room}"))?;
    wrapped("wrapped numbered command", &written, |room| calls.wrapped_write_numbered(&given, room))
}

/// The writer of numbered commands: each code and function; under the board's codes each value up to 9, and many numbers,
/// values and rooms.
pub fn write(calls: &impl Calls, rng: &mut Rng, ran: &mut Ran) -> Outcome {
    for code in 0..=255 {
        for function in 0..=255 {
            let given =
                NumberedGiven { number: numbered::kept(rng), code, function, value: generate::value(rng, code) };
            write_one(calls, given, 24, ran)?;
        }
    }
    for code in [0x01, 0x02, 0x07, 0x08] {
        for function in 0..=6 {
            for value in 0..=9 {
                write_one(calls, NumberedGiven { number: 1, code, function, value }, 24, ran)?;
            }
            for _ in 0..2000 {
                let (number, value) = (numbered::kept(rng), generate::value(rng, code));
                write_one(calls, NumberedGiven { number, code, function, value }, rng.below(24), ran)?;
            }
        }
    }
    Ok(())
}
