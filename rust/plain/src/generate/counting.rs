//! What is counted: long lists of calls of both ports that come to each error, with restarts and with calls that are refused
//! with each number; and what a driver's record may be told.

use super::numbered::{history_of, Silences};
use super::{readonly, Rng, Shrinkable, Step};
use crate::{Board, Port, Profile, Told};
use std::fmt;

/// What is wrong with what a call is given, so that it is refused where its port and room are right.
#[derive(Clone, Copy, Debug, PartialEq, Eq)]
pub enum Wrong {
    /// This port holds over 260 (17).
    Held(u8),
    /// A working value is not usable (17).
    Setting,
    /// The page is not 64 bytes (19).
    PageLength,
    /// The page is neither blank nor sound (20).
    Page,
}

impl Wrong {
    pub const ALL: [Wrong; 5] = [Wrong::Held(0), Wrong::Held(1), Wrong::Setting, Wrong::PageLength, Wrong::Page];

    /// The board that such a call is given instead of this one.
    pub fn board(self, board: &Board) -> Board {
        let mut given = *board;
        match self {
            Wrong::Held(port) => given.ports[usize::from(port)].held = Port::MOST_HELD + 1,
            Wrong::Setting => given.settings.gyroscope = 6,
            Wrong::PageLength | Wrong::Page => {}
        }
        given
    }

    /// The page that such a call is given instead of this one.
    pub fn page(self, page: &[u8]) -> Vec<u8> {
        match self {
            Wrong::PageLength => page[1..].to_vec(),
            Wrong::Page => vec![0; 64],
            Wrong::Held(_) | Wrong::Setting => page.to_vec(),
        }
    }
}

/// A step of a list, and what is wrong with what it is given, if it is a call and something is.
#[derive(Clone, Debug, PartialEq, Eq)]
pub struct Turn {
    pub step: Step,
    pub wrong: Option<Wrong>,
}

impl Shrinkable for Turn {
    fn bytes(&mut self) -> Option<&mut Vec<u8>> {
        self.step.bytes()
    }

    fn joined(&self, next: &Turn) -> Option<Turn> {
        let step = self.step.joined(&next.step).filter(|_| self.wrong == next.wrong)?;
        Some(Turn { step, wrong: self.wrong })
    }
}

impl fmt::Display for Turn {
    fn fmt(&self, f: &mut fmt::Formatter<'_>) -> fmt::Result {
        match self.wrong {
            None => write!(f, "{}", self.step),
            Some(wrong) => write!(f, "wrong {wrong:?}: {}", self.step),
        }
    }
}

/// A list of feeds, silences anywhere and restarts, from a start in this profile on this page, which is blank or sound, of so
/// many pieces on both ports. One call in eight is made before with something wrong, as by a driver that then mends it. Of the
/// restarts most are left out, so that the totals grow.
pub fn turns(rng: &mut Rng, profile: Profile, page: &[u8], pieces: usize) -> Vec<Turn> {
    let mut turns = Vec::new();
    for step in history_of(rng, (profile, page), pieces, readonly::piece, Silences::Anywhere) {
        if matches!(step, Step::Restart(_)) && !rng.chance(1, 8) {
            continue;
        }
        if step.port_and_room().is_some() && rng.chance(1, 8) {
            turns.push(Turn { step: step.clone(), wrong: Some(rng.pick(&Wrong::ALL)) });
        }
        turns.push(Turn { step, wrong: None });
    }
    turns
}

/// Bytes taken, skipped or held: few, as many as a port holds, many, and about the largest count.
pub fn count(rng: &mut Rng) -> usize {
    match rng.below(8) {
        0 | 1 => rng.pick(&[0, 1, 260, 261]),
        2 | 3 => rng.below(600),
        4 => rng.pick(&[0xFFFF_FFFF, 0x1_0000_0000, usize::MAX / 2, usize::MAX / 2 + 1]),
        5 | 6 => usize::MAX - rng.below(300),
        _ => rng.word() as usize,
    }
}

/// What a driver's record is told of a call, whether a call can answer so or not.
pub fn told(rng: &mut Rng) -> Told {
    let number = if rng.chance(3, 4) { rng.below(3) as u8 } else { rng.byte() };
    let error = if rng.chance(3, 4) { rng.below(10) as u8 } else { rng.byte() };
    Told { number, taken: count(rng), skipped: count(rng), error, before: count(rng), after: count(rng) }
}
