//! The gyroscope's ranges that this board no longer takes: each function on each page, boards of each range, and lists of
//! feeds and restarts over pages that hold them.

use crate::calls::Calls;
use crate::feeding::{Given, Pair, Start};
use crate::group::{Outcome, Ran};
use crate::in_place::start_any_board;
use crate::lists::{run_or_shrink, Beside};
use crate::records;
use crate::singles::{self, holding_nothing};
use ketphiroj::Board;
use plain::generate::numbered::numbered;
use plain::generate::{self, ranges, Call, Rng, Step};
use plain::Values;

/// The number that a page keeps, where it keeps one.
const LAST: u32 = 0x1FF;

/// What a page may hold of the gyroscope, each with a number and without; the other settings are any.
fn pages(rng: &mut Rng) -> Vec<Values> {
    let mut all = Vec::new();
    for gyroscope in std::iter::once(None).chain((1..=7).map(Some)) {
        for last_number in [None, Some(LAST)] {
            all.push(Values { gyroscope, last_number, ..generate::values(rng) });
        }
    }
    all
}

/// Fields of the gyroscope's range: functions 0 to 6 without a value, with each up to 9, and with two bytes.
fn gyroscope_fields() -> Vec<Vec<u8>> {
    let mut all = vec![vec![0x08, 0]];
    for function in 0..=6 {
        all.push(vec![0x08, 1, function]);
        all.extend((0..=9).map(|value| vec![0x08, 2, function, value]));
        all.extend([3, 6, 7].map(|value| vec![0x08, 3, function, value, value]));
    }
    all
}

/// Fields of the other settings with values near theirs, which no such page touches.
fn other_fields() -> Vec<Vec<u8>> {
    let mut all = Vec::new();
    for function in 0..=6 {
        all.extend((0..=9).map(|value| vec![0x07, 2, function, value]));
        all.extend((0..=9).map(|value| vec![0x01, 5, function, 0, 0, 0, value]));
        all.extend([vec![0x01, 1, function], vec![0x07, 1, function]]);
    }
    all
}

/// The field as a command without a number, with a fresh one, and with a stale one.
fn commands(field: &[u8]) -> [Vec<u8>; 3] {
    [plain::message(0x02, field), numbered(LAST + 1, 0x02, field), numbered(LAST, 0x02, field)]
}

/// Each function with each value, on each page and on boards of each range: answers, replies, settings and pages; then
/// what a restart makes of it.
pub fn all(calls: &impl Calls, rng: &mut Rng, ran: &mut Ran) -> Outcome {
    let (gyroscope_fields, other_fields) = (gyroscope_fields(), other_fields());
    for values in pages(rng) {
        let page = plain::write_page(&values);
        singles::start_in_any(calls, rng, &page, ran)?;
        start_any_board(calls, rng, &page, ran)?;
        boards(calls, rng, &page, ran)?;
        for field in &gyroscope_fields {
            (1..=5).try_for_each(|working| on_working(calls, rng, &page, working, field, ran))?;
            let profile = generate::profile(rng);
            in_lists(calls, Start { profile, page: &page }, field, ran)?;
        }
        for field in &other_fields {
            on_working(calls, rng, &page, 2, field, ran)?;
        }
        pairs(calls, rng, &page, &gyroscope_fields, ran)?;
    }
    Ok(())
}

/// Boards of each range of the gyroscope, usable or not, fed a Ping and a save.
fn boards(calls: &impl Calls, rng: &mut Rng, page: &[u8], ran: &mut Ran) -> Outcome {
    for gyroscope in 0..=255 {
        for (port, chunk) in [(0, plain::message(0x01, &[0x02, 0])), (1, plain::message(0x02, &[0x08, 1, 3]))] {
            let given = Given::Feed { port, chunk: &chunk, room: Board::REPLY };
            singles::one(calls, &working_with(rng, page, gyroscope), given, ran)?;
        }
    }
    Ok(())
}

/// A board that holds nothing and works with this range of the gyroscope, on this page.
fn working_with(rng: &mut Rng, page: &[u8], gyroscope: u8) -> Pair {
    let mut pair = holding_nothing(rng, page);
    pair.plain.settings.gyroscope = gyroscope;
    Pair { board: records::board(&pair.plain), ..pair }
}

/// The field in each command, on each port of a board that works with this range.
fn on_working(calls: &impl Calls, rng: &mut Rng, page: &[u8], working: u8, field: &[u8], ran: &mut Ran) -> Outcome {
    for chunk in &commands(field) {
        for port in [0, 1] {
            let pair = working_with(rng, page, working);
            singles::one(calls, &pair, Given::Feed { port, chunk, room: Board::REPLY }, ran)?;
        }
    }
    Ok(())
}

/// Two fields in one command: what the first leaves, the second works on.
fn pairs(calls: &impl Calls, rng: &mut Rng, page: &[u8], fields: &[Vec<u8>], ran: &mut Ran) -> Outcome {
    for first in fields {
        let second = &fields[rng.below(fields.len())];
        for (one, other) in [(first, second), (second, first)] {
            let working = rng.between(1, 5) as u8;
            on_working(calls, rng, page, working, &[&one[..], other].concat(), ran)?;
        }
        for other in [&[0x08, 1, 4][..], &[0x08, 1, 3], &[0x07, 1, 3], &[0x63, 0]] {
            on_working(calls, rng, page, 4, &[first, other].concat(), ran)?;
        }
    }
    Ok(())
}

/// From a start on the page: another range is used, then comes the field, then a report; a restart, a report and a load;
/// a save, a restart and a load. Port 1 needs no number, but on a read-only board it may only report.
fn in_lists(calls: &impl Calls, start: Start, field: &[u8], ran: &mut Ran) -> Outcome {
    let restart = Step::Restart(start.profile);
    let feed = |port: u8, chunk: Vec<u8>| Step::Feed(Call { port, chunk, room: Board::REPLY });
    let setting = |data: &[u8]| feed(1, plain::message(0x02, &[&[0x08, data.len() as u8], data].concat()));
    for command in commands(field) {
        for (port, beside) in [(0, Beside::Reckoning), (1, Beside::Reckoning), (0, Beside::Wrapper)] {
            let [using, report, save, load] = [&[1, 1][..], &[2], &[3], &[4]].map(setting);
            let tried = feed(port, command.clone());
            let before = [using, tried.clone(), report.clone(), restart.clone(), report.clone(), load.clone()];
            let after = [tried, save, restart.clone(), load, report];
            run_or_shrink(calls, start, &[&before[..], &after].concat(), beside, ran)?;
        }
    }
    Ok(())
}

/// Lists of feeds and restarts over pages of which most hold such a range; some beside the reckoning or the wrapper.
pub fn lists(calls: &impl Calls, rng: &mut Rng, ran: &mut Ran) -> Outcome {
    let page = if rng.chance(1, 8) { generate::sound_page(rng) } else { ranges::old_page(rng) };
    let (beside, pieces) = match rng.below(8) {
        // The reckoning goes through all bytes again for each byte.
        0 | 1 => (Beside::Reckoning, 4),
        2 | 3 => (Beside::Wrapper, 6),
        _ => (Beside::Nothing, 10),
    };
    let pieces = rng.between(1, pieces);
    let start = Start { profile: generate::profile(rng), page: &page };
    let list = ranges::history(rng, start.profile, &page, pieces);
    run_or_shrink(calls, start, &list, beside, ran)
}
