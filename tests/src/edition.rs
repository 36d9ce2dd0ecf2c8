//! The editions of the duty file (01; 02, P10).

use std::fmt;

#[derive(Clone, Copy, Debug, PartialEq, Eq)]
pub enum Edition {
    /// SPP1: costs from 1 to 1,000,000.
    One = 1,
    /// SPP2: signed costs from -1,000,000 to 1,000,000.
    Two = 2,
}

impl Edition {
    pub const BOTH: [Edition; 2] = [Edition::One, Edition::Two];

    /// The edition that the reader gives as a number.
    pub fn numbered(number: u32) -> Option<Edition> {
        Edition::BOTH.into_iter().find(|&edition| edition as u32 == number)
    }

    /// Of two values, that of the edition.
    pub fn of<T: Copy>(self, values: [T; 2]) -> T {
        values[self as usize - 1]
    }

    /// The bytes at the front of a file.
    pub fn mark(self) -> &'static [u8; 4] {
        self.of([b"SPP1", b"SPP2"])
    }
}

impl fmt::Display for Edition {
    fn fmt(&self, out: &mut fmt::Formatter) -> fmt::Result {
        out.pad(self.of(["SPP1", "SPP2"]))
    }
}
