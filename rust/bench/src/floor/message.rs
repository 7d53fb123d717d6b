//! One message of the floor programs: its errors, its fields, its number, and the reply.

use super::field::{Board, Fields};
use super::page::{self, Kept, Page};
use super::reply::{self, Room, Row};
use ketphiroj::Settings;

const NUMBERED: u8 = 0x7C;

/// Who may do what, and whether a page's number has a part in it.
#[derive(Clone, Copy)]
pub struct Rights {
    pub port: u8,
    pub readonly: bool,
}

impl Rights {
    #[inline(always)]
    fn restricted(self) -> bool {
        self.readonly & (self.port == 1)
    }

    /// The error of functions 1, 3, 4 and 5 without a number.
    #[inline(always)]
    pub fn refused(self, numbered: bool) -> u8 {
        let of_number = if numbered & (self.port == 0) { 5 } else { 0 };
        if self.restricted() {
            7
        } else {
            of_number
        }
    }
}

/// How a good message was answered: the first error, whether the page was written, and the settings then.
pub struct Answered {
    pub error: u8,
    pub saved: bool,
    pub settings: Settings,
}

/// What a message is answered with.
pub struct Desk<'a> {
    pub room: &'a mut Room,
    pub page: &'a mut Page,
    pub kept: Kept,
    pub rights: Rights,
    pub settings: Settings,
}

/// Answers a good message of `whole` bytes, whose payload the row has.
#[inline(always)]
pub fn answer<F: Fields>(row: &[u8], whole: usize, desk: Desk) -> Answered {
    let Desk { room, page, kept, rights, settings } = desk;
    let kind = row[2];
    if (kind != 1) & (kind != 2) & (kind != NUMBERED) {
        let error = not_reached(kind, &row[4..], whole - 6, 2, room);
        return Answered { error, saved: false, settings };
    }
    let mut board = Board::new(settings, page, kept, rights.refused(kept.numbered));
    let error = match kind {
        NUMBERED => numbered::<F>(&row[4..], whole - 6, rights, &mut board, room),
        _ => command::<F>(kind, kind, &row[4..], whole - 6, &mut board, room),
    };
    Answered { error, saved: board.saved, settings: board.settings() }
}

/// The reply of one row to a message whose fields are not reached.
#[inline(always)]
pub fn not_reached(kind: u8, row: &[u8], length: usize, error: u8, room: &mut Room) -> u8 {
    let echo = if length == 0 { 0 } else { row[0] };
    reply::write_short(room, kind, echo, error);
    error
}

/// The fields of a command of type 1 or 2: the first `length` bytes of the row.
#[inline(always)]
fn command<F: Fields>(answered: u8, kind: u8, row: &[u8], length: usize, board: &mut Board, room: &mut Room) -> u8 {
    if length > 1 && usize::from(row[1]) + 2 == length {
        let row = F::handle(kind, row, board);
        match F::BRANCHES && !row.reports {
            true => reply::write_short(room, answered, row.echo, row.error),
            false => reply::write_one(room, answered, row),
        }
        return row.error;
    }
    several::<F>(answered, kind, row, length, board, room)
}

#[inline(never)]
fn several<F: Fields>(answered: u8, kind: u8, row: &[u8], length: usize, board: &mut Board, room: &mut Room) -> u8 {
    let payload = &row[..length];
    if length == 0 || !filled(payload) {
        return not_reached(answered, payload, length, if length == 0 { 3 } else { 4 }, room);
    }
    let (mut rows, mut end) = ([0; _], 0);
    let (mut at, mut first) = (0, None);
    while at < length {
        // As much of the row as there is, so that a field can be read as seven bytes.
        let row: Row = F::handle(kind, &row[at..], board);
        end = reply::append(&mut rows, end, row);
        first = first.or(Some(row.error));
        at += 2 + usize::from(payload[at + 1]);
    }
    reply::write_rows(room, answered, &rows, end);
    first.unwrap_or(0)
}

/// Whether 1 to 16 fields fill a payload exactly.
#[inline(always)]
fn filled(payload: &[u8]) -> bool {
    let (mut at, mut fields) = (0, 0);
    while at + 1 < payload.len() {
        at += 2 + usize::from(payload[at + 1]);
        fields += 1;
    }
    at == payload.len() && fields <= 16
}

/// The payload of a numbered command: the first `length` bytes of the row.
#[inline(never)]
fn numbered<F: Fields>(row: &[u8], length: usize, rights: Rights, board: &mut Board, room: &mut Room) -> u8 {
    let fields = if length > 5 { &row[5..] } else { &[] };
    let left = length.saturating_sub(5);
    if rights.restricted() {
        return not_reached(NUMBERED, fields, left, 7, room);
    }
    if length < 5 {
        return not_reached(NUMBERED, fields, 0, 4, room);
    }
    let number = page::word(row);
    if page::number(board.kept, board.page).is_some_and(|last| number <= last) {
        return not_reached(NUMBERED, fields, left, 5, room);
    }
    board.put_number(number);
    match row[4] {
        kind @ (1 | 2) => command::<F>(NUMBERED, kind, fields, left, board, room),
        _ => not_reached(NUMBERED, fields, left, 2, room),
    }
}
