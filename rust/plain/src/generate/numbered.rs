//! Numbered commands, whole and wrong, pages that keep a number, and histories of feeds, silences and restarts over one page.
//!
//! They stand beside the generators of commands without a number, whose material is not to change.

use super::{
    accepted_command, chunk_length, damage, fields, mutated, other_length, page_of_entries, piece, port, profile,
    ranges, room,
};
use super::{code, value, Board, Call, Rng, Step};
use crate::message::{bytes_of, number_of, payload_of};
use crate::{check_message, feed, message, silence, start, write_page, Draining, Fed, Port, Profile, Values};

// Numbers.

/// Numbers at which something ends: a byte, a half, a sign, all of it.
pub const ENDS: [u32; 12] =
    [0, 1, 0xFF, 0x100, 0xFFFF, 0x1_0000, 0xFF_FFFF, 0x7FFF_FFFF, 0x8000_0000, 0xFF00_0000, 0xFFFF_FFFE, 0xFFFF_FFFF];

/// A number that a page may keep.
pub fn kept(rng: &mut Rng) -> u32 {
    match rng.below(4) {
        0 => rng.pick(&ENDS),
        1 => rng.below(1000) as u32,
        _ => rng.word() as u32,
    }
}

/// A number for a command to a board whose page keeps this one: half of them are the next; the others are about it, at
/// the ends, fresh or stale only where fewer bits are compared or the bytes in another order, or any.
pub fn number(rng: &mut Rng, last: Option<u32>) -> u32 {
    let Some(last) = last else {
        return kept(rng);
    };
    match rng.below(16) {
        0..=7 => last.wrapping_add(1),
        8 => last.wrapping_add(rng.between(2, 600) as u32),
        9 => last,
        10 => last.wrapping_sub(rng.between(1, 600) as u32),
        11 => last.wrapping_add(rng.pick(&[0x1_0000, 0xFFFF_0001, 0x100, 0xFFFF_FF01])),
        12 => rng.pick(&[last.swap_bytes(), last.wrapping_add(1).swap_bytes(), last.rotate_left(16), !last]),
        13 | 14 => rng.pick(&ENDS),
        _ => rng.word() as u32,
    }
}

// Commands.

/// The most bytes that the fields of a numbered command have.
pub const MOST_INNER: usize = 250;

/// The message of type 7C with this number, inner type and inner fields, at most [`MOST_INNER`] bytes of them.
pub fn numbered(number: u32, kind: u8, fields: &[u8]) -> Vec<u8> {
    message(0x7C, &[&bytes_of(number, 4)[..], &[kind], fields].concat())
}

/// An inner type: mostly 02 and 01, now and then 7C or another one that has no fields.
pub fn inner_kind(rng: &mut Rng) -> u8 {
    match rng.below(16) {
        0 => rng.pick(&[0x00, 0x03, 0x70, 0x7C, 0x80, 0xA5]),
        1 => rng.byte(),
        2..=4 => 0x01,
        _ => 0x02,
    }
}

/// Inner fields: one that is accepted, several, 16 or 17, none, or some that do not fill the payload.
pub fn inner_fields(rng: &mut Rng, kind: u8) -> Vec<u8> {
    match rng.below(12) {
        0 => Vec::new(),
        1 => {
            let mut fields = fields::unfilled(rng, kind);
            fields.truncate(MOST_INNER);
            fields
        }
        2 => {
            let count = rng.pick(&[15, 16, 17]);
            fields::row_within(rng, kind, count, MOST_INNER)
        }
        3..=5 => {
            let count = fields::count(rng);
            fields::row_within(rng, kind, count, MOST_INNER)
        }
        6 if kind == 0x02 => {
            let function = rng.between(1, 5) as u8;
            fields::three(rng, function)
        }
        _ => fields::accepted_field(rng, kind),
    }
}

/// A command of a field that the board accepts, its number being fresh.
pub fn accepted(rng: &mut Rng, number: u32) -> Vec<u8> {
    let kind = rng.pick(&[0x01, 0x02, 0x02, 0x02, 0x02]);
    numbered(number, kind, &fields::accepted_field(rng, kind))
}

/// A message of type 7C for a board whose page keeps this number; the sums are right. Some are too short for a number
/// and a type.
pub fn command(rng: &mut Rng, last: Option<u32>) -> Vec<u8> {
    let number = number(rng, last);
    if rng.chance(1, 3) {
        return accepted(rng, number);
    }
    let kind = inner_kind(rng);
    let whole = numbered(number, kind, &inner_fields(rng, kind));
    if rng.chance(1, 16) {
        let length = rng.below(7).min(payload_of(&whole).len());
        return message(0x7C, &payload_of(&whole)[..length]);
    }
    whole
}

/// One piece of a stream: numbered commands, damaged ones, and others.
pub fn numbered_piece(rng: &mut Rng, last: Option<u32>) -> Vec<u8> {
    match rng.below(13) {
        0..=5 => command(rng, last),
        6 => {
            let whole = command(rng, last);
            damage(rng, whole)
        }
        7 => fields::several(rng),
        8 | 9 => accepted_command(rng),
        10 => fields::three_settings(rng),
        11 => ranges::command(rng, last),
        _ => piece(rng),
    }
}

/// A stream of such pieces for one port of a board with a blank page. The numbers are about the largest so far.
pub fn stream(rng: &mut Rng, pieces: usize) -> Vec<u8> {
    let mut bytes = Vec::new();
    let mut last = None;
    for _ in 0..pieces {
        let piece = numbered_piece(rng, last);
        if check_message(&piece) == 0 && piece[2] == 0x7C && piece[3] >= 5 {
            last = last.max(Some(number_of(&piece[4..8])));
        }
        bytes.extend(piece);
    }
    bytes
}

// Pages.

/// Storable values under any of the four codes; mostly with a number.
pub fn values(rng: &mut Rng) -> Values {
    let last_number = rng.chance(7, 8).then(|| kept(rng));
    Values { last_number, ..super::values(rng) }
}

/// A sound page, mostly with a number.
pub fn sound_page(rng: &mut Rng) -> [u8; 64] {
    write_page(&values(rng))
}

/// The writing of any entries, entry 70 among them: the codes in another order, twice the same, unknown ones, values
/// that are not storable, bodies of wrong sizes, five entries and more.
pub fn odd_page(rng: &mut Rng) -> [u8; 64] {
    let mut entries: Vec<(u8, Vec<u8>)> = Vec::new();
    let skipped = rng.below(4);
    for place in skipped..rng.between(4, 6) {
        let code = if rng.chance(1, 12) { code(rng) } else { [0x01, 0x07, 0x08, 0x70, 0x70, 0x71][place] };
        let size = if code == 0x01 || code == 0x70 { 4 } else { 1 };
        let number = if code == 0x70 { kept(rng) } else { value(rng, code) };
        let mut body = bytes_of(number, size);
        if rng.chance(1, 8) {
            let size = rng.below(6);
            body = rng.bytes(size);
        }
        entries.push((code, body));
    }
    if rng.chance(1, 4) {
        let (a, b) = (rng.below(entries.len()), rng.below(entries.len()));
        entries.swap(a, b);
    }
    let gap = if rng.chance(1, 8) { rng.between(1, 3) } else { 0 };
    page_of_entries(&entries, gap)
}

/// A page, mostly with a number: sound, odd, mutated, or of another length.
pub fn page(rng: &mut Rng) -> Vec<u8> {
    match rng.below(12) {
        0..=5 => sound_page(rng).to_vec(),
        6 | 7 => odd_page(rng).to_vec(),
        8..=10 => {
            let page = sound_page(rng);
            // Four entries take 23 bytes.
            mutated(rng, page, 24).to_vec()
        }
        _ => {
            let mut page = sound_page(rng).to_vec();
            page.resize(other_length(rng), 0xFF);
            page
        }
    }
}

// Histories.

/// What makes a piece for a board whose page keeps this number.
pub type PieceOf = fn(&mut Rng, Option<u32>) -> Vec<u8>;

/// Which silences stand in a history.
#[derive(Clone, Copy, Debug, PartialEq, Eq)]
pub enum Silences {
    None,
    /// Each accepted one is drained to answer 1 before a feed of that port is accepted again.
    Drained,
    Anywhere,
}

/// What a history has come to, told by the plain feed and the plain silence.
struct History {
    piece: PieceOf,
    silences: Silences,
    draining: Draining,
    board: Board,
    page: Vec<u8>,
    /// What each port has still to be given.
    waiting: [Vec<u8>; 2],
    /// What the ports were given from the start on, and may be given again.
    sent: Vec<Vec<u8>>,
    steps: Vec<Step>,
}

impl History {
    /// Gives a port a piece more: one that was given before, or one with a number about the one that the page keeps.
    fn give(&mut self, rng: &mut Rng, port: usize) {
        let last = crate::values(&self.page).and_then(|values| values.last_number);
        let piece = match rng.chance(1, 4) && !self.sent.is_empty() {
            true => self.sent[rng.below(self.sent.len())].clone(),
            false => (self.piece)(rng, last),
        };
        self.waiting[port].extend(&piece);
        self.sent.push(piece);
    }

    /// A start anew, in any profile, on the page as it stands. What a port held is lost; what it was still to be given may
    /// be, too.
    fn restart(&mut self, rng: &mut Rng) {
        let profile = profile(rng);
        self.board = start(profile, &self.page).1;
        self.draining = Draining::default();
        if rng.chance(1, 2) {
            self.waiting = [Vec::new(), Vec::new()];
        }
        self.steps.push(Step::Restart(profile));
    }

    /// A feed of a beginning of what waits for a port. What it takes is given; the rest waits on.
    fn feed(&mut self, rng: &mut Rng, port: u8) {
        let (room, length) = (room(rng), chunk_length(rng));
        let room = if self.must_drain(port) { room % Port::LONGEST_REPLY } else { room };
        let chunk = match self.waiting.get(usize::from(port)) {
            Some(rest) => rest[..length.min(rest.len())].to_vec(),
            None => rng.bytes(3),
        };
        let fed = feed(port, &self.board, &chunk, &mut vec![0; room], &mut self.page);
        if let Some(rest) = self.waiting.get_mut(usize::from(port)) {
            rest.drain(..fed.taken);
        }
        self.answered(Step::Feed(Call { port, chunk, room }), fed);
    }

    fn silence(&mut self, rng: &mut Rng, port: u8) {
        let room = room(rng);
        let fed = silence(port, &self.board, &mut vec![0; room], &mut self.page);
        self.answered(Step::Silence { port, room }, fed);
    }

    /// A call more, and its answer.
    fn answered(&mut self, call: Step, fed: Fed) {
        let drained = self.draining.allows(call.answered(fed.number));
        assert!(drained || self.silences == Silences::Anywhere, "a feed is accepted before its port is drained");
        self.board = fed.board;
        self.steps.push(call);
    }

    /// Whether a port of a drained history is to be drained before a feed of it is accepted.
    fn must_drain(&self, port: u8) -> bool {
        self.silences == Silences::Drained && self.draining.must_drain(port)
    }

    /// Whether the next call of a port is a silence: more often where nothing waits for it, as on a line that is silent
    /// because all was sent. Now and then a feed comes even while the port is to be drained; it is then refused.
    fn is_silent(&self, rng: &mut Rng, port: u8) -> bool {
        let waits = self.waiting.get(usize::from(port)).is_some_and(|rest| !rest.is_empty());
        match self.silences {
            Silences::None => false,
            _ if self.must_drain(port) => rng.chance(7, 8),
            _ => rng.chance(1, if waits { 8 } else { 2 }),
        }
    }
}

/// A list of feeds and restarts, from a start in this profile, over one page, which is blank or sound: so many pieces, on both
/// ports, with numbers about the one that the page keeps at the time, and with pieces that are sent again, before and after
/// restarts.
pub fn history(rng: &mut Rng, profile: Profile, page: &[u8], pieces: usize) -> Vec<Step> {
    history_of(rng, (profile, page), pieces, numbered_piece, Silences::None)
}

/// Such a list of these pieces, with these silences, from a start in this profile on this page.
pub fn history_of(
    rng: &mut Rng,
    (profile, page): (Profile, &[u8]),
    pieces: usize,
    piece: PieceOf,
    silences: Silences,
) -> Vec<Step> {
    let (board, page, waiting) = (start(profile, page).1, page.to_vec(), [Vec::new(), Vec::new()]);
    let (sent, steps, draining) = (Vec::new(), Vec::new(), Draining::default());
    let mut history = History { piece, silences, draining, board, page, waiting, sent, steps };
    let mut left = pieces;
    // Even if each feed were refused, the list ends.
    let most = 40 + 60 * pieces;
    while history.steps.len() < most {
        let port = port(rng);
        let named = usize::from(port);
        if history.is_silent(rng, port) {
            history.silence(rng, port);
            continue;
        }
        if left > 0 && history.waiting.get(named).is_some_and(Vec::is_empty) {
            history.give(rng, named);
            left -= 1;
        }
        match rng.below(16) {
            0 => history.restart(rng),
            _ => history.feed(rng, port),
        }
        if left == 0 && history.waiting.iter().all(Vec::is_empty) && rng.chance(1, 4) {
            break;
        }
    }
    history.steps
}
