//! The totals of a port, in the board and in a record of the driver's own.

use crate::board::Outcome;
use crate::ffi;
use crate::refusal::Refusal;
use crate::reply::ReplyError;

/// The totals of one port since the board was started, which say how bad its line is.
///
/// A board has one for each port and counts there itself ([`Board::tally`](crate::Board::tally)). A driver that wants them on its
/// own keeps a record beside the board, see [`Tally::count`].
///
/// Each total stops at [`u64::MAX`], for itself, and then says "at least"; none begins anew. From a start on, and until `taken` has
/// stopped, which is the largest of the three, `taken` is `good` plus `skipped` plus the bytes that the port holds. A start, a refused
/// one too, gives zeros, and a refused call changes none. Any totals are sound: no call refuses a board for them.
///
/// ```
/// use ketphiroj::{Board, Outcome, Profile, Refusal, Tally};
///
/// let mut page = [0xFF; 64];
/// let mut board = Board::start(Profile::Full, &page)?;
/// let mut room = [0; Board::REPLY];
///
/// // The driver's own record of port 0, beside the board's.
/// let mut own = Tally::new();
///
/// // Two bytes of noise, a Ping, a Ping with a wrong sum, a message of a type that no board has, and half a Ping.
/// let mut chunk: &[u8] = &[
///     0x00, 0xA5, // skipped
///     0xA5, 0xA5, 0x01, 0x02, 0x02, 0x00, 0x4F, 0x25, // good
///     0xA5, 0xA5, 0x01, 0x02, 0x02, 0x00, 0x4F, 0x24, // skipped, and error 1
///     0xA5, 0xA5, 0x03, 0x02, 0x02, 0x00, 0x51, 0x2D, // good, though error 2
///     0xA5, 0xA5, 0x01, 0x02, // held
/// ];
/// loop {
///     let before = board.first.held;
///     let answer = board.feed(0, chunk, &mut room, &mut page);
///     own.count(&answer, before, board.first.held);
///     let outcome = answer?;
///     chunk = &chunk[outcome.taken()..];
///     if let Outcome::UsedUp { .. } = outcome {
///         break;
///     }
/// }
/// assert_eq!(own, Tally { taken: 30, skipped: 10, good: 16, errors: [1, 1, 1, 0, 0, 0, 0, 0] });
/// assert_eq!(board.tally(0), Some(&own));
/// assert_eq!(own.taken, own.good + own.skipped + board.first.held as u64);
///
/// // Nothing came on port 1.
/// assert_eq!(board.tally(1), Some(&Tally::new()));
/// # Ok::<(), Refusal>(())
/// ```
#[derive(Clone, Copy, Debug, Default, PartialEq, Eq)]
#[repr(C)]
pub struct Tally {
    /// Bytes taken from the chunks.
    pub taken: u64,
    /// Bytes that the scan skipped: those of no message, and the first of each damaged one.
    pub skipped: u64,
    /// Bytes of good messages, those with right sums, whatever they were answered.
    pub good: u64,
    /// Messages by the number of the first error in the reply, 0 to 7: of a command with several fields the first row's.
    ///
    /// 0: done. The others are those of [`ReplyError`]. 1: damaged on the line, or noise that looked like a message. 2: a type that the
    /// board does not know. 3: a code that it does not know, or no field. 4: a command that is not well made. 5: a command that was sent
    /// again, or has no number where it needs one. 6: a range that only older boards have. 7: a command that may not come on this port.
    pub errors: [u64; 8],
}

impl Tally {
    /// Zeros, as at the start.
    #[must_use]
    pub const fn new() -> Tally {
        Tally { taken: 0, skipped: 0, good: 0, errors: [0; 8] }
    }

    /// Counts a call of [`Board::feed`](crate::Board::feed) or [`Board::silence`](crate::Board::silence) in a driver's own record of the
    /// port that it was of: what the call gave, and the bytes that the port held before it and after it.
    ///
    /// A record that is zero when the board is started, and in which every call of its port is counted, equals the board's totals of
    /// that port after each of them, and so does one that is begun later, with the board's totals in place of zero. That is proved of the
    /// library. A refusal counts nothing, and so may be passed or left out.
    ///
    /// ```
    /// use ketphiroj::{Outcome, Refusal, Tally};
    ///
    /// // The first 5 of 8 bytes are held; then the others come, and behind them 2 of noise.
    /// let mut own = Tally::new();
    /// own.count(&Ok(Outcome::UsedUp { taken: 5, skipped: 0 }), 0, 5);
    /// own.count(&Ok(Outcome::Reported { taken: 3, skipped: 0, saved: false, error: None, reply: 10 }), 5, 0);
    /// own.count(&Ok(Outcome::UsedUp { taken: 2, skipped: 2 }), 0, 0);
    /// own.count(&Err(Refusal::Room), 0, 0);
    /// assert_eq!(own, Tally { taken: 10, skipped: 2, good: 8, errors: [1, 0, 0, 0, 0, 0, 0, 0] });
    /// ```
    pub fn count(&mut self, answer: &Result<Outcome, Refusal>, before: usize, after: usize) {
        match *answer {
            Ok(Outcome::Reported { taken, skipped, error, .. }) => {
                let error = error.map_or(0, ReplyError::number);
                self.count_call(0, taken, skipped, error, before, after)
            }
            Ok(Outcome::UsedUp { taken, skipped }) => self.count_call(1, taken, skipped, 0, before, after),
            Err(refusal) => self.count_call(refusal.number(), 0, 0, 0, before, after),
        }
    }

    /// Counts a call by its number, as the C interface has it. Any arguments are taken.
    ///
    /// A number above 1 changes nothing. Otherwise the bytes taken and skipped are added, and as bytes of good messages what is left
    /// of `taken` plus `before`, less `skipped`, less `after`: at least 0, and reckoned in whole numbers that do not wrap. Number 0
    /// counts a message under its error, if that is not above 7.
    ///
    /// ```
    /// use ketphiroj::Tally;
    ///
    /// let mut own = Tally::new();
    /// own.count_call(0, usize::MAX, 3, 8, 1, 0);
    /// assert_eq!(own, Tally { taken: u64::MAX, skipped: 3, good: u64::MAX - 2, errors: [0; 8] });
    /// own.count_call(0, 5, 6, 7, 0, usize::MAX);
    /// assert_eq!(own, Tally { taken: u64::MAX, skipped: 9, good: u64::MAX - 2, errors: [0, 0, 0, 0, 0, 0, 0, 1] });
    /// let before = own;
    /// own.count_call(16, 1, 2, 3, 4, 5);
    /// assert_eq!(own, before);
    /// ```
    pub fn count_call(&mut self, number: u8, taken: usize, skipped: usize, error: u8, before: usize, after: usize) {
        ffi::count(self, number, taken, skipped, error, before, after);
    }
}
