//! The feed in place of the floor programs.

use super::field::Fields;
use super::message::{self, Answered, Desk, Rights};
use super::page::{self, Kept, Page};
use super::reply::{self, Room};
use crate::{seek, sums};
use ketphiroj::ffi::{Stepped, TOTALS};
use ketphiroj::Settings;

const HELD: usize = 260;

/// What a feed works on, once its arguments are tested.
struct Lent<'a> {
    bytes: &'a mut [u8; HELD],
    totals: &'a mut [u64; TOTALS],
    room: &'a mut Room,
    page: &'a mut Page,
    kept: Kept,
    rights: Rights,
    settings: Settings,
}

/// Where a feed stops: the bytes taken, skipped and held then.
#[derive(Clone, Copy)]
struct Stopped {
    taken: usize,
    skipped: usize,
    held: usize,
}

/// A feed of a chunk to a port, with the arguments of the library's call but that it is never quiet.
#[inline(never)]
#[allow(clippy::too_many_arguments)] // those of the library's call
pub fn feed_in_place<F: Fields>(
    port: u8,
    bytes: &mut [u8],
    first: usize,
    second: usize,
    settings: Settings,
    readonly: bool,
    totals: &mut [u64],
    chunk: &[u8],
    room: &mut [u8],
    page: &mut [u8],
) -> Stepped {
    let held = if port == 0 { first } else { second };
    let refused = |number| Stepped { taken: 0, skipped: 0, held, settings, number, error: 0, saved: false };
    if port > 1 {
        return refused(16);
    }
    let (Ok(bytes), Ok(totals)) = (bytes.try_into(), totals.try_into()) else {
        return refused(17);
    };
    if first > HELD || second > HELD || !usable(settings) {
        return refused(17);
    }
    let Some(room) = room.first_chunk_mut() else {
        return refused(18);
    };
    let Ok(page) = <&mut Page>::try_from(page) else {
        return refused(19);
    };
    let Some(kept) = page::test(page) else {
        return refused(20);
    };
    let lent = Lent { bytes, totals, room, page, kept, rights: Rights { port, readonly }, settings };
    match held {
        0 => direct::<F>(lent, chunk, 0, 0),
        _ => straddling::<F>(lent, held, chunk),
    }
}

#[inline(always)]
fn usable(settings: Settings) -> bool {
    let Settings { baud, accelerometer, gyroscope } = settings;
    page::rate_allowed(baud) & (accelerometer.wrapping_sub(1) < 4) & (gyroscope.wrapping_sub(1) < 5)
}

impl Stopped {
    /// Counts a feed that reported nothing.
    #[inline(always)]
    fn used_up(self, settings: Settings, totals: &mut [u64; TOTALS]) -> Stepped {
        let Stopped { taken, skipped, held } = self;
        add(&mut totals[0], taken);
        add(&mut totals[1], skipped);
        Stepped { taken, skipped, held, settings, number: 1, error: 0, saved: false }
    }

    /// Counts a feed that reported a damaged message.
    #[inline(always)]
    fn damaged(self, settings: Settings, totals: &mut [u64; TOTALS]) -> Stepped {
        self.good(0, Answered { error: 1, saved: false, settings }, totals)
    }

    /// Counts a feed that reported a good message of so many bytes.
    #[inline(always)]
    fn good(self, whole: usize, answered: Answered, totals: &mut [u64; TOTALS]) -> Stepped {
        let Stopped { taken, skipped, held } = self;
        let Answered { error, saved, settings } = answered;
        add(&mut totals[0], taken);
        add(&mut totals[1], skipped);
        add(&mut totals[2], whole);
        add(&mut totals[3 + usize::from(error & 7)], 1);
        Stepped { taken, skipped, held, settings, number: 0, error, saved }
    }
}

#[inline(always)]
fn add(total: &mut u64, more: usize) {
    *total = total.saturating_add(more as u64);
}

/// A port that holds nothing: it has mostly been cleared already, and to see that takes less than to clear it.
#[inline(always)]
fn clear(bytes: &mut [u8; HELD]) {
    let (words, rest) = bytes.as_chunks();
    let any = words.iter().fold(0, |any, &word| any | u64::from_ne_bytes(word));
    if rest.iter().fold(any, |any, &byte| any | u64::from(byte)) != 0 {
        *bytes = [0; HELD];
    }
}

/// The chunk from a place on, where nothing held is left: so many bytes were, and were skipped.
#[inline(always)]
fn direct<F: Fields>(lent: Lent, chunk: &[u8], from: usize, held: usize) -> Stepped {
    let Lent { bytes, totals, room, page, kept, rights, settings } = lent;
    let at = from + seek::opening(&chunk[from..]);
    let (rest, skipped) = (&chunk[at..], held + at);
    let whole = match rest {
        [_, _, _, length, ..] => usize::from(*length) + 6,
        _ => usize::MAX,
    };
    if rest.len() < whole {
        keep(bytes, 0, 0, rest);
        return Stopped { taken: chunk.len(), skipped, held: rest.len() }.used_up(settings, totals);
    }
    let taken = at + whole;
    if !sums::right(rest, whole) {
        message::not_reached(rest[2], &rest[4..], whole - 6, 1, room);
        keep(bytes, 0, 0, &rest[1..whole]);
        return Stopped { taken, skipped: skipped + 1, held: whole - 1 }.damaged(settings, totals);
    }
    let answered = message::answer::<F>(rest, whole, Desk { room, page, kept, rights, settings });
    clear(bytes);
    Stopped { taken, skipped, held: 0 }.good(whole, answered, totals)
}

/// The held bytes and the chunk as one row.
struct Row<'a> {
    held: &'a [u8],
    chunk: &'a [u8],
}

impl Row<'_> {
    #[inline(always)]
    fn get(&self, place: usize) -> Option<u8> {
        match self.held.get(place) {
            Some(&byte) => Some(byte),
            None => self.chunk.get(place - self.held.len()).copied(),
        }
    }

    /// The place of the first opening, or of what may be one; not before the held bytes' end where none of them is in it.
    #[inline(always)]
    fn opening(&self) -> usize {
        let mut at = seek::opening(self.held);
        // Of the one or two A5 at their end the chunk decides.
        while at < self.held.len() && at + 3 > self.held.len() {
            let skips = self.get(at + 1).is_some_and(|byte| byte != 0xA5) || self.get(at + 2) == Some(0xA5);
            if !skips {
                break;
            }
            at += 1;
        }
        at
    }

    /// Whether the sums of the message at a place are right.
    #[inline(always)]
    fn right(&self, at: usize, whole: usize) -> bool {
        let (own, count) = (&self.held[at..], whole - 2);
        if own.len() >= whole {
            return sums::right(own, whole);
        }
        let first = own.len().min(count);
        let (f1, f2) = sums::and_behind(sums::of_front(own, first), self.chunk, count - first);
        (self.get(at + count) == Some(f1)) & (self.get(at + count + 1) == Some(f2))
    }
}

/// The chunk of a port that holds something.
#[inline(never)]
fn straddling<F: Fields>(lent: Lent, held: usize, chunk: &[u8]) -> Stepped {
    let row = Row { held: &lent.bytes[..held], chunk };
    let at = row.opening();
    if at >= held {
        return direct::<F>(lent, chunk, at - held, held);
    }
    let left = held - at + chunk.len();
    let whole = row.get(at + 3).map_or(usize::MAX, |length| usize::from(length) + 6);
    if left < whole {
        keep(lent.bytes, at, held, chunk);
        return Stopped { taken: chunk.len(), skipped: at, held: left }.used_up(lent.settings, lent.totals);
    }
    let taken = whole.saturating_sub(held - at);
    if row.right(at, whole) {
        return good::<F>(lent, at, held, &chunk[..taken], whole);
    }
    let (kind, echo) = (row.get(at + 2).unwrap_or(0), if whole == 6 { 0 } else { row.get(at + 4).unwrap_or(0) });
    reply::write_short(lent.room, kind, echo, 1);
    keep(lent.bytes, at + 1, held, &chunk[..taken]);
    let held = held + taken - at - 1;
    Stopped { taken, skipped: at + 1, held }.damaged(lent.settings, lent.totals)
}

/// A good message at a place of the held bytes, whose last bytes are those in the chunk.
#[inline(always)]
fn good<F: Fields>(lent: Lent, at: usize, held: usize, more: &[u8], whole: usize) -> Stepped {
    let Lent { bytes, totals, room, page, kept, rights, settings } = lent;
    let own = held - at;
    let mut from = at;
    // It is made one row in the port's own bytes: without its last byte, a sum, it has place there.
    if !more.is_empty() {
        if at > 0 {
            bytes.copy_within(at..held, 0);
        }
        let fits = more.len().min(HELD - own);
        bytes[own..own + fits].copy_from_slice(&more[..fits]);
        from = 0;
    }
    let answered = message::answer::<F>(&bytes[from..], whole, Desk { room, page, kept, rights, settings });
    let left = own + more.len() - whole;
    if left > 0 {
        bytes.copy_within(at + whole..held, 0);
    }
    bytes[left..].fill(0);
    Stopped { taken: more.len(), skipped: at, held: left }.good(whole, answered, totals)
}

/// The port holds what it held from a place on, and then these bytes.
#[inline(always)]
fn keep(bytes: &mut [u8; HELD], from: usize, held: usize, more: &[u8]) {
    if from > 0 {
        bytes.copy_within(from..held, 0);
    }
    let own = held - from;
    let end = own + more.len();
    bytes[own..end].copy_from_slice(more);
    bytes[end..].fill(0);
}
