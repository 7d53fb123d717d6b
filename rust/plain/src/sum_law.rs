//! The sum law of a port (01-025), which 02-06.6 asks of every list of feeds and silences, drained or not. It is told by
//! the calls alone, with no scan. And the same law between the totals and the bytes held (02-13.3).

use crate::message::{check_message, length_of};
use crate::number;
use crate::tally::Tally;

/// What an accepted call of a port did.
#[derive(Clone, Copy, Debug)]
pub struct Accepted<'a> {
    /// The bytes that the port held before, and then those that the call took.
    pub row: &'a [u8],
    pub taken: usize,
    pub skipped: usize,
    /// Empty where there is none.
    pub reply: &'a [u8],
    /// How many bytes the port holds afterwards.
    pub held: usize,
}

impl Accepted<'_> {
    /// The length of the good message that was reported; 0 where none was, or a damaged one, whose reply has error 1.
    ///
    /// A good message stands behind the skipped bytes, and a damaged one begins with the last of them. Nothing where there
    /// is no such message.
    fn good(&self) -> Option<usize> {
        let (place, expected) = match self.reply.get(7) {
            None => return Some(0),
            Some(1) => (self.skipped.checked_sub(1)?, number::SUMS),
            Some(_) => (self.skipped, number::DONE),
        };
        let unread = self.row.get(place..).filter(|unread| unread.len() >= 4)?;
        let message = unread.get(..length_of(unread) + 6)?;
        let good = if expected == number::DONE { message.len() } else { 0 };
        (check_message(message) == expected).then_some(good)
    }
}

/// The sums of a run from a fresh port.
#[derive(Clone, Copy, Debug, Default, PartialEq, Eq)]
pub struct SumLaw {
    taken: usize,
    good: usize,
    skipped: usize,
}

impl SumLaw {
    /// Counts an accepted call. 01-025: "bytes taken on it = lengths of its good messages + bytes the scan skipped + bytes
    /// held." Told is what does not hold, if anything does not.
    pub fn count(&mut self, call: &Accepted) -> Result<(), String> {
        let good = call.good().ok_or_else(|| format!("no message where the call reported one: {call:02X?}"))?;
        self.taken += call.taken;
        self.good += good;
        self.skipped += call.skipped;
        if self.taken == self.good + self.skipped + call.held {
            return Ok(());
        }
        Err(format!("the sum law does not hold: {self:?} and {} held", call.held))
    }
}

/// 02-13.3: "the sum law holds between them and the bytes held", until a total has reached its largest figure. 01-025: "bytes
/// taken on it = lengths of its good messages + bytes the scan skipped + bytes held."
pub fn adds_up(totals: &Tally, held: usize) -> bool {
    let bytes = [totals.taken, totals.good, totals.skipped];
    let [taken, good, skipped] = bytes.map(u128::from);
    bytes.contains(&u64::MAX) || taken == good + skipped + held as u128
}
