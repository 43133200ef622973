//! "Numbers the cab prints."

use std::fmt;

/// A refusal. Its number is the one the cab prints.
#[derive(Clone, Copy, Debug, PartialEq, Eq)]
pub enum Refusal {
    /// "post to a stream not in the set"
    NoSuchStream = 1,
    /// "post with 64 pending"; with request 8 "2 now means the party's number"
    Full = 2,
    /// "unit at clock 4,000,000,000"
    LastClock = 3,
    /// "unit with done, nothing pending"
    NothingPending = 4,
    /// "bits missing gives 5"
    BitsMissing = 5,
    /// "a bad version 6"
    BadVersion = 6,
    /// "value or set out of rule"
    OutOfRule = 7,
    /// "H above 1,000,000"
    LongCycle = 8,
    /// "Any other byte, or p without its digit"
    BadTraceByte = 9,
    /// "a set padding bit or a further byte gives 10"
    AfterLastField = 10,
    /// "sheet longer than the buffer lent for writing"; of a recording too, "11 where there is no
    /// room"
    BufferTooShort = 11,
    /// "state not well formed"; in a replay also "the reader's place is not in its recording"
    NotWellFormed = 12,
    /// "13 for a recording that stops before end"
    StopsBeforeEnd = 13,
    /// "14 for set padding or further bytes"
    AfterEnd = 14,
    /// "exactly when accepting would break that stream's limit given its accepted posts so far"
    AtTheDoor = 15,
    /// "16 at start, after 7, when the places exceed 64"
    TooManyPlaces = 16,
}

impl Refusal {
    /// The number the cab prints.
    pub fn number(self) -> u8 {
        self as u8
    }
}

impl fmt::Display for Refusal {
    fn fmt(&self, out: &mut fmt::Formatter) -> fmt::Result {
        write!(out, "refused {}", self.number())
    }
}
