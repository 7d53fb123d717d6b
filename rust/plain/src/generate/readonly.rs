//! What port 1 of a read-only board is given: commands that it refuses and those that it takes, numbered commands fresh, stale
//! and too short; and two runs that differ in what comes on port 1 alone.

use super::fields::{self, SETTINGS};
use super::numbered::{self, history_of, Silences};
use super::{damage, silences, Rng, Shrinkable, Step};
use crate::{message, Profile};
use std::fmt;

/// A field of a setting with any function; mostly one that changes something, and often of a wrong size.
pub fn field(rng: &mut Rng) -> Vec<u8> {
    let code = rng.pick(&SETTINGS);
    let function = rng.pick(&[1, 1, 3, 3, 3, 4, 4, 5, 5, 2, 2, 0, 6, 255]);
    match rng.below(8) {
        0 => vec![code, 0],
        1 => {
            let size = rng.below(7);
            [vec![code, 1 + size as u8, function], rng.bytes(size)].concat()
        }
        2..=4 if function != 1 => vec![code, 1, function],
        _ => fields::setting(code, function, super::value(rng, code)),
    }
}

/// A command of one to four such fields, among them now and then one of any kind.
pub fn command(rng: &mut Rng) -> Vec<u8> {
    let mut payload = Vec::new();
    for _ in 0..rng.between(1, 4) {
        payload.extend(if rng.chance(1, 6) { fields::field(rng, 0x02) } else { field(rng) });
    }
    message(0x02, &payload)
}

/// A numbered command for a board whose page keeps this number; one in four is a Ping or a report, which change nothing but
/// the number.
fn numbered_command(rng: &mut Rng, last: Option<u32>) -> Vec<u8> {
    let number = numbered::number(rng, last);
    match rng.below(8) {
        0 => numbered::numbered(number, 0x01, &[0x02, 0]),
        1 => numbered::numbered(number, 0x02, &[rng.pick(&SETTINGS), 1, 2]),
        2 | 3 => numbered::numbered(number, 0x02, &field(rng)),
        _ => numbered::command(rng, last),
    }
}

/// One piece of a stream, for a board whose page keeps this number.
pub fn piece(rng: &mut Rng, last: Option<u32>) -> Vec<u8> {
    match rng.below(12) {
        0..=3 => command(rng),
        4..=6 => numbered_command(rng, last),
        7 => {
            let whole = if rng.chance(1, 2) { command(rng) } else { numbered_command(rng, last) };
            damage(rng, whole)
        }
        8 => fields::three_settings(rng),
        9 => message(0x01, &[0x02, 0]),
        10 => silences::piece(rng, last),
        _ => numbered::numbered_piece(rng, last),
    }
}

/// A list of feeds, silences, drained or not, and restarts of a read-only board over one page, which is blank or sound.
pub fn history(rng: &mut Rng, page: &[u8], pieces: usize) -> Vec<Step> {
    let silences = rng.pick(&[Silences::Drained, Silences::Anywhere]);
    let steps = history_of(rng, (Profile::ReadOnly, page), pieces, piece, silences);
    let read_only = |step| match step {
        Step::Restart(_) => Step::Restart(Profile::ReadOnly),
        call => call,
    };
    steps.into_iter().map(read_only).collect()
}

/// In which of two runs a call is made.
#[derive(Clone, Copy, Debug, PartialEq, Eq)]
pub enum Run {
    Both,
    First,
    Second,
}

/// A call of port 0, which is made in both runs, or one of port 1, or of no port, in one of them.
#[derive(Clone, Debug, PartialEq, Eq)]
pub struct Turn {
    pub run: Run,
    pub step: Step,
}

impl Shrinkable for Turn {
    fn bytes(&mut self) -> Option<&mut Vec<u8>> {
        self.step.bytes()
    }

    fn joined(&self, next: &Turn) -> Option<Turn> {
        let step = self.step.joined(&next.step).filter(|_| self.run == next.run)?;
        Some(Turn { run: self.run, step })
    }
}

impl fmt::Display for Turn {
    fn fmt(&self, f: &mut fmt::Formatter<'_>) -> fmt::Result {
        match self.run {
            Run::Both => write!(f, "both runs: {}", self.step),
            Run::First => write!(f, "first run: {}", self.step),
            Run::Second => write!(f, "second run: {}", self.step),
        }
    }
}

/// The calls of one of the two runs, in their order.
pub fn calls_of(turns: &[Turn], run: Run) -> Vec<Step> {
    let made = |turn: &&Turn| turn.run == Run::Both || turn.run == run;
    turns.iter().filter(made).map(|turn| turn.step.clone()).collect()
}

/// Two runs from one start on this page, which is blank or sound. 02-12.3: "the same feeds, silences and room lengths on port
/// 0, and anything at all on port 1": the turns of port 1, and those that name no port, stand anywhere between those of port 0.
pub fn two_runs(rng: &mut Rng, page: &[u8], pieces: usize) -> Vec<Turn> {
    let mut waiting = [(0, Run::Both), (1, Run::First), (1, Run::Second)].map(|(port, run)| {
        // About half of the pieces of a list are port 0's.
        let mut steps = history(rng, page, 2 * pieces);
        steps.retain(|step| step.port_and_room().is_some_and(|(named, _)| named.min(1) == port));
        // One run in four has nothing on port 1.
        if port == 1 && rng.chance(1, 4) {
            steps.clear();
        }
        steps.into_iter().map(|step| Turn { run, step }).rev().collect::<Vec<Turn>>()
    });
    let mut turns = Vec::new();
    while waiting.iter().any(|rest| !rest.is_empty()) {
        let next = rng.below(waiting.len());
        turns.extend(waiting[next].pop());
    }
    turns
}
