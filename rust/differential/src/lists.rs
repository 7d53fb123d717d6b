//! Lists of feeds, silences and restarts from a start on a blank or sound page.

use crate::calls::Calls;
use crate::feeding::{self, Given, Pair, Start};
use crate::group::{same, Outcome, Ran};
use crate::records;
use ketphiroj::Board;
use plain::generate::{self, Call, Rng, Shrinkable, Step};
use plain::{Draining, Profile, Reckoned, Reckoning};
use std::fmt::Display;

/// What a list is compared with, beyond the plain feed and the plain silence.
#[derive(Clone, Copy, PartialEq, Eq)]
pub enum Beside {
    Nothing,
    /// The plain reckoning: each answer, and the state at the end.
    Reckoning,
    /// The wrapper's own feed.
    Wrapper,
}

/// Runs a list: every answer, room, board and page is compared after every call.
pub fn run(calls: &impl Calls, start: Start, list: &[Step], beside: Beside, ran: &mut Ran) -> Outcome {
    let mut running = Running::new(calls, beside, start)?;
    for (place, step) in list.iter().enumerate() {
        if let Step::Restart(profile) = *step {
            running.end()?;
            running = Running::new(calls, beside, Start { profile, page: &running.pair.page })?;
            continue;
        }
        ran.count(running.call(step).map_err(|text| format!("step {place}: {text}"))?);
    }
    running.end()
}

/// A list from a start on.
struct Running<'a, C> {
    calls: &'a C,
    beside: Beside,
    pair: Pair,
    /// As long as the list is drained: demand 3 is about no other.
    reckoning: Option<Reckoning>,
    draining: Draining,
}

fn started(calls: &impl Calls, start: Start) -> Result<Pair, String> {
    let (number, pair) = feeding::start(calls, start)?;
    same("number of start", &number, &0)?;
    Ok(pair)
}

impl<C: Calls> Running<'_, C> {
    fn new<'a>(calls: &'a C, beside: Beside, start: Start) -> Result<Running<'a, C>, String> {
        let pair = started(calls, start)?;
        let reckoning = (beside == Beside::Reckoning).then(|| Reckoning::new(start.profile, start.page));
        Ok(Running { calls, beside, pair, reckoning, draining: Draining::default() })
    }

    /// A feed or a silence. Gives its number.
    fn call(&mut self, step: &Step) -> Result<u8, String> {
        let given = Given::of(step).ok_or("a restart is no call")?;
        let before = (self.beside == Beside::Wrapper).then(|| self.pair.clone());
        let (fed, room) = feeding::call(self.calls, &mut self.pair, given)?;
        if let Some(before) = before {
            feeding::call_wrapped(self.calls, (&before, &self.pair), given, &fed, &room)?;
        }
        if !self.draining.allows(step.answered(fed.number)) {
            self.reckoning = None;
        }
        if let Some(reckoning) = &mut self.reckoning {
            let plain::Fed { number, taken, skipped, error, saved, .. } = fed;
            let answer = Reckoned { number, taken, skipped, error, saved, reply: reply_in(number, &room).to_vec() };
            same("answer and reckoning", &self.calls.answer_reckoned(answer), &reckon(reckoning, given))?;
        }
        Ok(fed.number)
    }

    /// The state at the end, against the reckoning's.
    fn end(&self) -> Outcome {
        match &self.reckoning {
            Some(reckoning) => reckoned_state(reckoning, &self.calls.board_reckoned(self.pair.board), &self.pair.page),
            None => Ok(()),
        }
    }
}

/// What the reckoning says of a feed or a silence.
pub fn reckon(reckoning: &mut Reckoning, given: Given) -> Reckoned {
    match given {
        Given::Feed { port, chunk, room } => reckoning.feed(port, chunk, room),
        Given::Silence { port, room } => reckoning.silence(port, room),
    }
}

/// The reply at the front of the room of a call with this number; empty where there is none. A call that wrongly accepts a
/// short room may leave less than a whole reply there.
pub fn reply_in(number: u8, room: &[u8]) -> &[u8] {
    match room.get(3) {
        Some(&length) if number == 0 => &room[..room.len().min(usize::from(length) + 6)],
        _ => &[],
    }
}

/// Profile, settings, held bytes, totals and page as reckoned; past the held bytes a port is zero.
pub fn reckoned_state(reckoning: &Reckoning, board: &Board, page: &[u8]) -> Outcome {
    same("reckoned profile", &board.readonly, &records::readonly(reckoning.profile()))?;
    let settings = reckoning.settings();
    same("reckoned baud", &board.settings.baud, &settings.baud)?;
    same("reckoned accelerometer", &board.settings.accelerometer, &settings.accelerometer)?;
    same("reckoned gyroscope", &board.settings.gyroscope, &settings.gyroscope)?;
    same("reckoned page", page, &reckoning.page()[..])?;
    for (number, port, tally) in [(0, &board.first, &board.tally0), (1, &board.second, &board.tally1)] {
        let mut bytes = reckoning.held(number);
        same("reckoned held", &port.held, &bytes.len())?;
        bytes.resize(260, 0);
        same("reckoned port", &port.bytes[..], &bytes[..])?;
        same("reckoned totals", tally, &records::tally(&reckoning.totals(number)))?;
    }
    Ok(())
}

/// Runs a list; of a difference, the shortest list that shows one.
pub fn run_or_shrink(calls: &impl Calls, start: Start, list: &[Step], beside: Beside, ran: &mut Ran) -> Outcome {
    or_shrink(start, list, ran, |list, ran| run(calls, start, list, beside, ran))
}

/// Runs a list from this start as told; of a difference, the shortest list that shows one.
pub fn or_shrink<T: Shrinkable + Display>(
    start: Start,
    list: &[T],
    ran: &mut Ran,
    run: impl Fn(&[T], &mut Ran) -> Outcome,
) -> Outcome {
    let Err(text) = run(list, ran) else {
        return Ok(());
    };
    let again = |list: &[T]| run(list, &mut Ran::default());
    let short = generate::shrink(list, |list| again(list).is_err());
    let why = again(&short).expect_err("a shrunk list still fails");
    Err(format!("{text}\n{}\n  {why}", shown(start, short)))
}

/// A list as text: profile and page, then a line for each step.
fn shown<T: Shrinkable + Display>(Start { profile, page }: Start, mut list: Vec<T>) -> String {
    let bytes: usize = list.iter_mut().filter_map(Shrinkable::bytes).map(|bytes| bytes.len()).sum();
    let count = list.len();
    let steps: String = list.iter().map(|step| format!("\n    {step}")).collect();
    format!("  shortest: {count} steps with {bytes} bytes, {profile:?}, from the page {}{steps}", hex(page))
}

pub fn hex(bytes: &[u8]) -> String {
    if bytes.is_empty() {
        return "(empty)".to_string();
    }
    bytes.iter().map(|byte| format!("{byte:02X}")).collect()
}

/// Lists of all kinds of streams.
pub fn any(calls: &impl Calls, rng: &mut Rng, beside: Beside, ran: &mut Ran) -> Outcome {
    let page = generate::sound_page(rng);
    // The reckoning goes through all bytes again for each byte: short lists for it.
    let pieces = match beside {
        Beside::Reckoning => rng.between(1, 5),
        _ => rng.between(1, 16),
    };
    let list = generate::steps(rng, &page, pieces);
    run_or_shrink(calls, Start { profile: generate::profile(rng), page: &page }, &list, beside, ran)
}

/// Lists of the streams in which a scan can go wrong: messages within messages, runs of A5, false headers, the longest
/// payloads.
pub fn hard(calls: &impl Calls, rng: &mut Rng, ran: &mut Ran) -> Outcome {
    let page = generate::sound_page(rng);
    let stream: Vec<u8> = (0..rng.between(1, 8)).flat_map(|_| hard_piece(rng)).collect();
    let list = cut_for_one_port(rng, &stream);
    run_or_shrink(calls, Start { profile: generate::profile(rng), page: &page }, &list, Beside::Nothing, ran)
}

fn hard_piece(rng: &mut Rng) -> Vec<u8> {
    let longest = |rng: &mut Rng| {
        let length = rng.between(253, 255);
        plain::message(generate::kind(rng), &rng.bytes(length))
    };
    match rng.below(10) {
        0 | 1 => generate::nested(rng),
        2 => {
            let outer = generate::nested(rng);
            generate::damage(rng, outer)
        }
        3 => vec![0xA5; rng.between(1, 300)],
        4 => generate::run(rng),
        5 => generate::false_header(rng),
        6 => longest(rng),
        7 => {
            let whole = longest(rng);
            generate::damage(rng, whole)
        }
        8 => full_of_headers(rng),
        _ => generate::accepted_command(rng),
    }
}

/// A long payload of A5 and small bytes, in which there is a header nearly everywhere.
fn full_of_headers(rng: &mut Rng) -> Vec<u8> {
    let length = rng.between(100, 255);
    let payload: Vec<u8> = (0..length).map(|_| rng.pick(&[0xA5, 0xA5, 0xA5, 0x00, 0x01, 0x02])).collect();
    let mut message = plain::message(generate::kind(rng), &payload);
    if rng.chance(1, 2) {
        message[4 + length] ^= 1;
    }
    message
}

/// Feeds a stream to one port and offers again what was not taken, so that nothing of it is lost. What is taken is the same in
/// either profile.
fn cut_for_one_port(rng: &mut Rng, stream: &[u8]) -> Vec<Step> {
    let mut page = vec![0xFF; 64];
    let (_, mut board) = plain::start(Profile::Full, &page);
    let port = rng.below(2) as u8;
    let mut rest = stream;
    let mut list = Vec::new();
    let mut answered = 0;
    while !(rest.is_empty() && answered == 1) {
        let length = generate::chunk_length(rng).min(rest.len());
        let fed = plain::feed(port, &board, &rest[..length], &mut [0; Board::REPLY], &mut page);
        list.push(Step::Feed(Call { port, chunk: rest[..length].to_vec(), room: Board::REPLY }));
        rest = &rest[fed.taken..];
        board = fed.board;
        answered = fed.number;
    }
    list
}

/// A stream much longer than a port's room, given whole to each feed as far as it was not taken. Its length does not fit
/// 16 bits.
pub fn long(calls: &impl Calls, rng: &mut Rng, ran: &mut Ran) -> Outcome {
    let page = generate::sound_page(rng);
    let stream: Vec<u8> = (0..6000).flat_map(|_| generate::piece(rng)).collect();
    let mut pair = started(calls, Start { profile: generate::profile(rng), page: &page })?;
    let mut at = 0;
    loop {
        let given = Given::Feed { port: 0, chunk: &stream[at..], room: Board::REPLY };
        let before = pair.board.first;
        let (fed, _) = feeding::call(calls, &mut pair, given).map_err(|text| {
            let near = &stream[at..stream.len().min(at + 300)];
            format!("at byte {at}: {text}\n  held {}, then {}", hex(&before.bytes[..before.held]), hex(near))
        })?;
        ran.count(fed.number);
        at += fed.taken;
        if fed.number != 0 {
            return same("bytes taken in all", &at, &stream.len());
        }
    }
}
