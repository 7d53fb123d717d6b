//! The scan of a whole stream (01-013 to 01-018, with request 01's step, 02-01.3, and request 06's silence marks, 02-06.4),
//! as the plain reckoning uses it.

use crate::message::sums_right;

/// What the scan does at one place.
#[derive(Clone, Copy, Debug, PartialEq, Eq)]
pub enum Event {
    /// "one byte is skipped"
    Skipped { place: usize },
    /// "a good message, and reading goes on after its last byte"
    Good { place: usize, length: usize },
    /// "a damaged message is reported and one byte is skipped"
    Damaged { place: usize, length: usize },
}

impl Event {
    /// Where reading goes on.
    pub fn after(&self) -> usize {
        match *self {
            Event::Skipped { place } => place + 1,
            Event::Good { place, length } => place + length,
            Event::Damaged { place, .. } => place + 1,
        }
    }

    /// Bytes skipped: the one of a damaged message too.
    pub fn skipped(&self) -> usize {
        match self {
            Event::Skipped { .. } => 1,
            Event::Good { .. } => 0,
            Event::Damaged { .. } => 1,
        }
    }

    /// Bytes of a good message; a damaged one has none.
    pub fn good(&self) -> usize {
        match *self {
            Event::Skipped { .. } | Event::Damaged { .. } => 0,
            Event::Good { length, .. } => length,
        }
    }

    /// The place and the length of a message, good or damaged.
    pub fn message(&self) -> Option<(usize, usize)> {
        match *self {
            Event::Skipped { .. } => None,
            Event::Good { place, length } | Event::Damaged { place, length } => Some((place, length)),
        }
    }
}

/// Everything that the scan does on these bytes, until it is undecided or nothing is left.
pub fn scan(bytes: &[u8]) -> Vec<Event> {
    scan_marked(bytes, &[])
}

/// 02-06.4: "its scan now reads a stream with silence marks, no message crossing a mark". A mark is how many bytes stand
/// before it; the marks ascend.
///
/// Before a mark the scan looks no further than the mark, and is never undecided: 02-06.3: "each time it is undecided the
/// front byte is skipped with no error". After the last one it is document 01's.
pub fn scan_marked(bytes: &[u8], marks: &[usize]) -> Vec<Event> {
    let mut events = Vec::new();
    let mut place = 0;
    // "At the front of what is unread:"
    while place < bytes.len() {
        let mark = marks.get(marks.partition_point(|&mark| mark <= place));
        let end = mark.map_or(bytes.len(), |&mark| mark);
        let event = match (front(place, &bytes[place..end]), mark) {
            (Some(event), _) => event,
            (None, Some(_)) => Event::Skipped { place },
            (None, None) => break,
        };
        events.push(event);
        place = event.after();
    }
    events
}

/// What the scan does at this place, where so much is unread; nothing where it is undecided.
fn front(place: usize, unread: &[u8]) -> Option<Event> {
    // "the first byte is not A5, or a second byte is there and is not A5: one byte is skipped;"
    let no_opening = unread[0] != 0xA5 || (unread.len() >= 2 && unread[1] != 0xA5);
    // 02-01.3: "When the front is A5 A5 and a third byte is there and is A5, the scan skips one byte and reports
    // nothing."
    let stray = unread.starts_with(&[0xA5, 0xA5, 0xA5]);
    if no_opening || stray {
        return Some(Event::Skipped { place });
    }

    // "otherwise, until L + 6 bytes are there, it is undecided;"
    let length = usize::from(*unread.get(3)?) + 6;
    let message = unread.get(..length)?;

    if sums_right(message) {
        // "sums right: a good message, and reading goes on after its last byte;"
        Some(Event::Good { place, length })
    } else {
        // "sums wrong: a damaged message is reported and one byte is skipped."
        Some(Event::Damaged { place, length })
    }
}
