//! A group of cases: what it ran, which numbers came, and the first difference.

use std::fmt::Debug;

/// A difference between the library and the plain reading, in words.
pub type Outcome = Result<(), String>;

/// Nothing where both are the same, else what each is.
pub fn same<T: PartialEq + Debug + ?Sized>(what: &str, library: &T, plain: &T) -> Outcome {
    if library == plain {
        return Ok(());
    }
    Err(format!("{what}: the library has {library:02X?}, the plain reading {plain:02X?}"))
}

/// What a group has run.
#[derive(Default)]
pub struct Ran {
    /// Calls of the library that were compared.
    pub calls: u64,
    /// How often each number came.
    numbers: Vec<u64>,
}

impl Ran {
    pub fn count(&mut self, number: u8) {
        let place = usize::from(number);
        if self.numbers.len() <= place {
            self.numbers.resize(place + 1, 0);
        }
        self.calls += 1;
        self.numbers[place] += 1;
    }

    pub fn times(&self, number: u8) -> u64 {
        self.numbers.get(usize::from(number)).copied().unwrap_or(0)
    }

    /// A group that never meets an answer does not test it.
    pub fn reached(&self, numbers: &[u8]) -> Outcome {
        match numbers.iter().find(|&&number| self.times(number) == 0) {
            None => Ok(()),
            Some(number) => Err(format!("the number {number} never came in {} calls", self.calls)),
        }
    }
}

/// A room of this length, filled with a byte that shows what was not written.
pub fn filled(length: usize, filling: u8) -> Vec<u8> {
    vec![filling; length]
}
