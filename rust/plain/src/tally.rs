//! The totals of a port (02-13.2, 02-13.3), and the driver's own record of them (02-13.4, 02-13.5).
//!
//! The two share nothing but the kind of record: the board counts what a call did, and the driver's record is told of a call
//! from outside.

use crate::number;

/// 02-13.2: "64-bit totals since start of bytes taken, bytes skipped, bytes of good messages, and messages by the first error
/// number in the reply, 0 to 7." 02-13.4: the driver's "tally record, one for each port and zero at the start".
#[derive(Clone, Copy, Debug, Default, PartialEq, Eq)]
pub struct Tally {
    pub taken: u64,
    pub skipped: u64,
    pub good: u64,
    /// By the error: those with error 0 come first.
    pub errors: [u64; 8],
}

/// What an accepted call did to its port.
#[derive(Clone, Copy, Debug, PartialEq, Eq)]
pub struct Done {
    pub taken: usize,
    pub skipped: usize,
    /// The length of the good message that was reported; 0 where none was, or a damaged one.
    pub good: usize,
    /// The error in the first row of the reply, where there is one.
    pub error: Option<u8>,
}

impl Tally {
    /// Counts an accepted call.
    pub fn count(&mut self, done: &Done) {
        stop_at_largest(&mut self.taken, done.taken);
        stop_at_largest(&mut self.skipped, done.skipped);
        stop_at_largest(&mut self.good, done.good);
        if let Some(error) = done.error {
            stop_at_largest(&mut self.errors[usize::from(error)], 1);
        }
    }
}

/// 02-13.3: "Until a total reaches its largest figure, where it stops".
fn stop_at_largest(total: &mut u64, more: usize) {
    let left = u64::MAX - *total;
    *total += left.min(more as u64);
}

/// What the driver's record is told of one call. 02-13.4: "each call's number, taken, skipped, first error and that port's held
/// counts before and after".
#[derive(Clone, Copy, Debug, PartialEq, Eq)]
pub struct Told {
    pub number: u8,
    pub taken: usize,
    pub skipped: usize,
    pub error: u8,
    pub before: usize,
    pub after: usize,
}

/// The driver's record after a call, from the record before it. Any arguments are taken, and any record.
pub fn record(tally: &Tally, told: &Told) -> Tally {
    // 02-13.5: "numbers above 1 change nothing."
    if told.number > 1 {
        return *tally;
    }
    let [taken, skipped] = [told.taken, told.skipped].map(whole);
    let [before, after] = [told.before, told.after].map(whole);
    // 02-13.4: "good bytes are taken plus before, less skipped, less after, at least 0."
    let good = (taken + before - skipped - after).max(0);
    let mut errors = tally.errors;
    // 02-13.5: "Only number 0 counts an error, none above 7".
    if told.number == number::DONE && told.error <= 7 {
        let counted = &mut errors[usize::from(told.error)];
        *counted = total(*counted, 1);
    }
    Tally {
        taken: total(tally.taken, taken),
        skipped: total(tally.skipped, skipped),
        good: total(tally.good, good),
        errors,
    }
}

/// As a whole number: sums and differences of a few of them neither wrap nor stop.
fn whole(count: usize) -> i128 {
    count as i128
}

/// The total with so much more, which is not negative, or its largest figure.
fn total(before: u64, more: i128) -> u64 {
    u64::try_from(i128::from(before) + more).unwrap_or(u64::MAX)
}
