//! The two parties of request 8: "A partner's streams will share the message table. Each party,
//! ours and theirs, owns some streams and a number of places, the two numbers together at most 64."
//!
//! A state has owners and places whether the request is in force or not: before it all streams are
//! ours, with 64 places.

use crate::set::{Set, STREAM_PLACES};
use crate::state::MESSAGE_PLACES;

/// "Each party, ours and theirs".
#[derive(Clone, Copy, Debug, PartialEq, Eq)]
pub enum Party {
    /// The yard.
    Ours,
    /// The lifting-gear maker.
    Theirs,
}

impl Party {
    /// The two of them, by their numbers.
    pub const BOTH: [Party; 2] = [Party::Ours, Party::Theirs];

    /// "P 0 ours or 1 theirs"
    pub fn of_number(number: u32) -> Option<Party> {
        Party::BOTH.get(number as usize).copied()
    }

    /// Its number.
    pub fn number(self) -> u32 {
        self as u32
    }

    /// The one that it shares the table with.
    pub fn other(self) -> Party {
        match self {
            Party::Ours => Party::Theirs,
            Party::Theirs => Party::Ours,
        }
    }
}

/// "two numbers of places": "they are any numbers".
#[derive(Clone, Copy, Debug, PartialEq, Eq)]
pub struct Places {
    /// How many places are ours.
    pub ours: u32,
    /// How many are theirs.
    pub theirs: u32,
}

impl Places {
    /// The number of a party.
    pub fn of(self, party: Party) -> u32 {
        match party {
            Party::Ours => self.ours,
            Party::Theirs => self.theirs,
        }
    }

    /// "the two numbers together at most 64"; "the sum may not overflow".
    pub fn in_rule(self) -> bool {
        let together = u64::from(self.ours) + u64::from(self.theirs);
        together <= MESSAGE_PLACES as u64
    }
}

/// "an owner, ours or theirs, for each of 16 streams"
pub type Owners = [Party; STREAM_PLACES];

/// The owners and the places.
#[derive(Clone, Copy, Debug, PartialEq, Eq)]
pub struct Parties {
    /// "Each stream has one owner".
    pub owners: Owners,
    /// How many places each party has.
    pub places: Places,
}

impl Parties {
    /// "all ours, 64 and 0"
    pub const US_ALONE: Parties = Parties {
        owners: [Party::Ours; STREAM_PLACES],
        places: Places {
            ours: MESSAGE_PLACES as u32,
            theirs: 0,
        },
    };

    /// "The owners of streams that the set does not have are taken as ours."
    pub fn at_start_of(&self, set: &Set) -> Parties {
        let mut parties = *self;
        let count = (set.count as usize).min(STREAM_PLACES);
        parties.owners[count..].fill(Party::Ours);
        parties
    }

    /// "unused streams ours"
    pub fn unused_are_ours(&self, set: &Set) -> bool {
        self.at_start_of(set).owners == self.owners
    }
}
