//! The totals of the ports: the driver's own record on any arguments; lists of calls of both ports, of which the record equals
//! the board's totals; and calls in place with rows of totals of any length. (Every other comparison of boards and answers has the
//! totals and the errors in it.)

use crate::calls::{Calls, InPlace};
use crate::feeding::{same_board, same_bytes, Given, Start};
use crate::group::{filled, same, Outcome, Ran};
use crate::lists::{hex, or_shrink};
use crate::records;
use ketphiroj::ffi::{Stepped, TOTALS};
use ketphiroj::{Board, Port, Refusal, ReplyError, Tally};
use plain::generate::counting::{self, Turn, Wrong};
use plain::generate::{self, numbered, silences, Rng, Step};
use plain::Told;

// The driver's own record.

/// What the wrapper gives of a call with these counts; none where no call is answered with the number, or no reply has the error.
fn wrapped_answer(told: &Told) -> Option<Result<ketphiroj::Outcome, Refusal>> {
    let Told { taken, skipped, error, .. } = *told;
    match told.number {
        0 if error > 7 => None,
        0 => {
            let error = records::error(error);
            Some(Ok(ketphiroj::Outcome::Reported { taken, skipped, saved: false, error, reply: 10 }))
        }
        1 => Some(Ok(ketphiroj::Outcome::UsedUp { taken, skipped })),
        number => Refusal::from_number(number).map(Err),
    }
}

/// One call, counted in a record with these totals: by the library, and by both ways of its wrapper.
fn record(calls: &impl Calls, tally: &plain::Tally, told: &Told, ran: &mut Ran) -> Outcome {
    ran.count(told.number);
    let expected = records::tally(&plain::record(tally, told));
    let [mut counted, mut by_number, mut by_answer] = [records::tally(tally); 3];
    calls.count(&mut counted, told);
    calls.wrapped_count_call(&mut by_number, told);
    match wrapped_answer(told) {
        Some(answer) => calls.wrapped_count(&mut by_answer, &answer, told.before, told.after),
        None => by_answer = expected,
    }
    same("record", &counted, &expected)
        .and_then(|()| same("wrapped record, by the number", &by_number, &expected))
        .and_then(|()| same("wrapped record, by the answer", &by_answer, &expected))
        .map_err(|text| format!("{text}\n  {told:?}\n  {tally:?}"))
}

/// Bytes taken, skipped or held: the ends of what a port has, of 32 bits and of all.
const COUNTS: [usize; 9] = [0, 1, 8, 260, 261, 0xFFFF_FFFF, 0x1_0000_0000, usize::MAX - 1, usize::MAX];

/// Each number with each error; each choice of counts at an end with the numbers and errors that matter; and many others. The
/// totals are any, often about their largest figure.
pub fn all_records(calls: &impl Calls, rng: &mut Rng, ran: &mut Ran) -> Outcome {
    for number in 0..=255 {
        for error in 0..=255 {
            record(calls, &generate::tally(rng), &Told { number, error, ..counting::told(rng) }, ran)?;
        }
    }
    for taken in COUNTS {
        for skipped in COUNTS {
            for before in COUNTS {
                for after in COUNTS {
                    for (number, error) in [(0, 0), (0, 7), (0, 8), (1, 7), (2, 0), (16, 255)] {
                        let told = Told { number, taken, skipped, error, before, after };
                        record(calls, &generate::tally(rng), &told, ran)?;
                    }
                }
            }
        }
    }
    (0..200_000).try_for_each(|_| record(calls, &generate::tally(rng), &counting::told(rng), ran))
}

// Lists of calls, and a record for each port.

/// By what a list is called and recorded.
#[derive(Clone, Copy, Debug, PartialEq, Eq)]
enum By {
    Library,
    Wrapper,
}

/// A board of the library, its page, and a driver's record of each port.
struct Recorded<'a, C> {
    calls: &'a C,
    by: By,
    board: Board,
    page: Vec<u8>,
    records: [Tally; 2],
    /// Whether the totals are those since a start, so that they add up.
    started: bool,
}

/// The number of what the wrapper gave.
fn number_of(answer: &Result<ketphiroj::Outcome, Refusal>) -> u8 {
    match answer {
        Ok(ketphiroj::Outcome::Reported { .. }) => 0,
        Ok(ketphiroj::Outcome::UsedUp { .. }) => 1,
        Err(refusal) => refusal.number(),
    }
}

/// The port that is named; port 1 where there is none.
fn named(port: u8, board: &Board) -> &Port {
    match port {
        0 => &board.first,
        _ => &board.second,
    }
}

/// The board that a call is given instead of this one, which is wrong.
fn spoiled(board: &Board, wrong: Option<Wrong>) -> Board {
    let mut given = *board;
    match wrong {
        Some(Wrong::Held(0)) => given.first.held = Port::ROOM + 1,
        Some(Wrong::Held(_)) => given.second.held = Port::ROOM + 1,
        Some(Wrong::Setting) => given.settings.gyroscope = 6,
        Some(Wrong::PageLength | Wrong::Page) | None => {}
    }
    given
}

/// Where a list begins: a start, and a board that is called instead of the one that was started.
#[derive(Clone, Copy)]
struct Begin<'a> {
    start: Start<'a>,
    made_up: Option<plain::Board>,
}

impl<C: Calls> Recorded<'_, C> {
    /// 02-13.4: the records are "zero at the start"; of a board that was not started they begin with its totals.
    fn begin<'a>(calls: &'a C, by: By, Begin { start, made_up }: Begin) -> Result<Recorded<'a, C>, String> {
        let (started, page) = (made_up.is_none(), start.page.to_vec());
        let (board, records) = match (made_up, by) {
            (Some(board), _) => (records::board(&board), board.tallies.map(|tally| records::tally(&tally))),
            (None, By::Library) => (calls.start(records::readonly(start.profile), &page).board, [Tally::new(); 2]),
            (None, By::Wrapper) => {
                let started = calls.wrapped_start(records::profile(start.profile), &page);
                (started.map_err(|refusal| format!("wrapped start: {refusal:?}"))?, [Tally::new(); 2])
            }
        };
        let recorded = Recorded { calls, by, board, page, records, started };
        recorded.same_totals(&recorded.board)?;
        Ok(recorded)
    }

    /// A start anew, of the records too: by the library a board by value, by the wrapper in place.
    fn restart(&mut self, profile: plain::Profile) -> Outcome {
        match self.by {
            By::Library => self.board = self.calls.start(records::readonly(profile), &self.page).board,
            By::Wrapper => {
                let profile = records::profile(profile);
                let started = self.calls.wrapped_start_in_place(&mut self.board, profile, &self.page);
                same("wrapped start in place", &started, &Ok(()))?;
            }
        }
        (self.records, self.started) = ([Tally::new(); 2], true);
        self.same_totals(&self.board)
    }

    /// 02-13.6: "So updated, the record equals the board's totals."
    fn same_totals(&self, board: &Board) -> Outcome {
        let totals = match self.by {
            By::Library => [Some(board.tally0), Some(board.tally1)],
            By::Wrapper => [0, 1].map(|port| self.calls.wrapped_tally(board, port)),
        };
        same("totals and records", &totals, &self.records.map(Some))
    }

    /// A call of this board, counted in the record of its port. Gives the number, and the board afterwards.
    fn call(&mut self, given: Given, port: u8, board: Board, page: &mut [u8]) -> Result<(u8, Board), String> {
        let mut room = given.room();
        let before = named(port, &board).held;
        let record = &mut self.records[usize::from(port.min(1))];
        let (number, error, after) = match self.by {
            By::Library => {
                let fed = given.answer(self.calls, board, &mut room, page);
                let (number, error, after) = (fed.number, fed.error, named(port, &fed.board).held);
                let told = Told { number, taken: fed.taken, skipped: fed.skipped, error, before, after };
                self.calls.count(record, &told);
                (number, error, fed.board)
            }
            By::Wrapper => {
                let mut after = board;
                let answer = given.wrapped_answer(self.calls, &mut after, &mut room, page);
                self.calls.wrapped_count(record, &answer, before, named(port, &after).held);
                let error = match answer {
                    Ok(ketphiroj::Outcome::Reported { error, .. }) => error.map_or(0, ReplyError::number),
                    Ok(ketphiroj::Outcome::UsedUp { .. }) | Err(_) => 0,
                };
                (number_of(&answer), error, after)
            }
        };
        let first = if number == 0 { room.get(7).copied().unwrap_or(0) } else { 0 };
        same("error told and in the reply", &error, &first)?;
        Ok((number, after))
    }

    /// A turn of a list: the totals equal the records, and from a start on they and the bytes held add up.
    fn turn(&mut self, Turn { step, wrong }: &Turn, ran: &mut Ran) -> Outcome {
        let Some((given, (port, _))) = Given::of(step).zip(step.port_and_room()) else {
            let Step::Restart(profile) = *step else { return Err("a step that is neither call nor restart".into()) };
            return self.restart(profile);
        };
        let board = spoiled(&self.board, *wrong);
        let mut page = wrong.map_or(self.page.clone(), |wrong| wrong.page(&self.page));
        let (number, after) = self.call(given, port, board, &mut page)?;
        ran.count(number);
        self.same_totals(&after)?;
        if number > 1 {
            return same_board(&after, &board);
        }
        (self.board, self.page) = (after, page);
        if !self.started {
            return Ok(());
        }
        add_up(&after.tally0, after.first.held)?;
        add_up(&after.tally1, after.second.held)
    }
}

/// 02-13.3: "the sum law holds between them and the bytes held."
pub fn add_up(tally: &Tally, held: usize) -> Outcome {
    match plain::adds_up(&records::plain_tally(tally), held) {
        true => Ok(()),
        false => Err(format!("the totals do not add up: {tally:?} and {held} held")),
    }
}

/// Runs a list.
fn recorded(calls: &impl Calls, by: By, begin: Begin, turns: &[Turn], ran: &mut Ran) -> Outcome {
    let mut recorded = Recorded::begin(calls, by, begin)?;
    for (place, turn) in turns.iter().enumerate() {
        recorded.turn(turn, ran).map_err(|text| format!("turn {place}: {text}"))?;
    }
    Ok(())
}

/// Long lists of feeds, silences, restarts and refused calls of each number, on both ports, by the library or by its wrapper:
/// after every call the records equal the totals. Half of the lists are from a board of any contents and totals.
pub fn lists(calls: &impl Calls, rng: &mut Rng, ran: &mut Ran) -> Outcome {
    let (profile, page) = (generate::profile(rng), silences::page(rng));
    let pieces = rng.between(4, 24);
    let turns = counting::turns(rng, profile, &page, pieces);
    let made_up = rng.chance(1, 2).then(|| plain::Board { profile, ..generate::sound_board(rng) });
    let by = rng.pick(&[By::Library, By::Wrapper]);
    let begin = Begin { start: Start { profile, page: &page }, made_up };
    or_shrink(begin.start, &turns, ran, |turns, ran| recorded(calls, by, begin, turns, ran)).map_err(|text| {
        let totals = made_up.map(|board| board.tallies);
        format!("by {by:?}: {text}\n  from the totals {totals:?}")
    })
}

// Rows of totals.

/// What a call in place is given and may write.
#[derive(Clone)]
struct Lent {
    bytes: Vec<u8>,
    totals: Vec<u64>,
    room: Vec<u8>,
    page: Vec<u8>,
}

/// A row of totals of any length; half are as long as a record.
fn row(rng: &mut Rng) -> Vec<u64> {
    let length = match rng.below(8) {
        0..=2 => rng.pick(&[0, 1, 8, TOTALS - 1, TOTALS + 1, 2 * TOTALS, 64, 88]),
        3 => rng.below(100),
        _ => TOTALS,
    };
    (0..length).map(|_| generate::total(rng)).collect()
}

/// The 260 bytes of the named port, or now and then an array that is shorter or longer.
fn bytes(rng: &mut Rng, port: &plain::Port) -> Vec<u8> {
    let mut bytes = port.bytes.to_vec();
    if rng.chance(1, 8) {
        bytes.resize(rng.pick(&[0, 11, 259, 261, 520]), 0x33);
    }
    bytes
}

/// A feed or a silence of a board of any contents, with the row and the array that are lent: 16, then 17 where one of them is not of
/// its length, then what the plain reading answers. What is refused writes nothing.
fn in_place(calls: &impl Calls, board: &plain::Board, given: (u8, bool, &[u8]), lent: Lent, ran: &mut Ran) -> Outcome {
    let (port, quiet, chunk) = given;
    let mut expected = lent.clone();
    let answer = expected_answer(board, given, &mut expected);
    ran.count(answer.number);
    let Lent { mut bytes, mut totals, mut room, mut page } = lent.clone();
    let library = &records::board(board);
    let stepped = calls.call_in_place(&mut InPlace {
        port,
        bytes: &mut bytes,
        board: library,
        quiet,
        totals: &mut totals,
        chunk,
        room: &mut room,
        page: &mut page,
    });
    same("call in place", &stepped, &answer)
        .and_then(|()| same("row of totals", &totals, &expected.totals))
        .and_then(|()| same_bytes("bytes of the port", &bytes, &expected.bytes))
        .and_then(|()| same_bytes("room", &room, &expected.room))
        .and_then(|()| same_bytes("page", &page, &expected.page))
        .map_err(|text| {
            let (bytes, totals) = (lent.bytes.len(), &lent.totals);
            format!("{text}\n  port {port}, quiet {quiet}, {bytes} bytes, row {totals:?}, chunk {}", hex(chunk))
        })
}

/// What the call answers, and what is lent to it afterwards.
fn expected_answer(board: &plain::Board, (port, quiet, chunk): (u8, bool, &[u8]), lent: &mut Lent) -> Stepped {
    let named = usize::from(port.min(1));
    let (held, settings) = (board.ports[named].held, records::settings(board.settings));
    let refused = |number| Stepped { taken: 0, skipped: 0, held, settings, number, error: 0, saved: false };
    if port > 1 {
        return refused(plain::number::PORT);
    }
    let mut board = *board;
    let (Ok(bytes), Ok(totals)) = (lent.bytes[..].try_into(), lent.totals[..].try_into()) else {
        return refused(plain::number::UNSOUND);
    };
    board.ports[named].bytes = bytes;
    board.tallies[named] = records::tally_of(totals);
    let fed = match quiet {
        true => plain::silence(port, &board, &mut lent.room, &mut lent.page),
        false => plain::feed(port, &board, chunk, &mut lent.room, &mut lent.page),
    };
    lent.bytes = fed.board.ports[named].bytes.to_vec();
    lent.totals = records::totals(&fed.board.tallies[named]).to_vec();
    let (held, settings) = (fed.board.ports[named].held, records::settings(fed.board.settings));
    let plain::Fed { number, taken, skipped, error, saved, .. } = fed;
    Stepped { taken, skipped, held, settings, number, error, saved }
}

/// One call in place, with a row of totals of any length. A silence is given a chunk, which it does not look at.
pub fn rows(calls: &impl Calls, rng: &mut Rng, ran: &mut Ran) -> Outcome {
    let board = generate::board(rng);
    let port = generate::port(rng);
    let pieces = rng.below(3);
    let chunk = generate::stream(rng, pieces);
    let lent = Lent {
        bytes: bytes(rng, &board.ports[usize::from(port.min(1))]),
        totals: row(rng),
        room: filled(generate::room(rng), 0x5C),
        page: if rng.chance(1, 2) { generate::page(rng) } else { numbered::page(rng) },
    };
    in_place(calls, &board, (port, rng.chance(1, 3), &chunk), lent, ran)
}
