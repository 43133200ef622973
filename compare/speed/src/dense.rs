//! A plain reader in pieces whose carried state is as small as words can make it: four words for each of the 16 streams, 512 bytes, and
//! what is needed of the field that comes. The state is lent and changed in place, and nothing is copied.
//!
//! It is there to be measured: how much feeding one byte at a time takes where each call tests nothing, looks at the words, or holds
//! the fields in them against their greatest values, of the words in use or of all. An exact test would have more to do: the least
//! values, offsets that fall, what is unused, how many bits have come.

use std::hint::black_box;

/// What each call does with what it is handed.
pub const NOTHING: u8 = 0;
pub const LOOKS_AT_USED: u8 = 1;
pub const LOOKS: u8 = 2;
pub const JUDGES_USED: u8 = 3;
pub const JUDGES: u8 = 4;

const VERSION: usize = 0;
const COUNT: usize = 1;
const DEADLINE: usize = 2;
const STAGES: usize = 3;
const TASK: usize = 4;
const COST: usize = 5;
const TUPLES: usize = 6;
const CYCLE: usize = 7;
const OFFSET: usize = 8;
const END: usize = 9;

/// The bits of each field; behind the end none is whole.
const WIDTHS: [u32; 10] = [4, 5, 18, 2, 4, 16, 2, 20, 17, u32::MAX];

/// Where the fields of a stream stand in its word for a stage and a tuple. The first offset is 0, and the deadline has its place; the
/// stages less one stand in the second word, the tuples less one in the third. Each of the two guards is a bit that is always 0.
const AT_OFFSET: u32 = 21;
const AT_COST: u32 = 40;
const AT_TASK: u32 = 56;
const AT_LESS: u32 = 60;
const GUARDS: u64 = 1 << 20 | 1 << 39;

#[derive(Clone, Copy)]
struct Carried {
    field: usize,
    whole: usize,
    streams: usize,
    version: u32,
    count: usize,
    stages: usize,
    tuples: usize,
    low: u32,
    refusal: u64,
    bits: u64,
    have: u32,
    need: u32,
    words: [u64; 64],
}

const FRESH: Carried = Carried {
    field: VERSION,
    whole: 0,
    streams: 0,
    version: 1,
    count: 0,
    stages: 0,
    tuples: 0,
    low: 0,
    refusal: 0,
    bits: 0,
    have: 0,
    need: 4,
    words: [0; 64],
};

/// What makes a guard 1 where a cycle, or the field above it, is over its greatest value.
const fn over(greatest: u64) -> u64 {
    (0xf_ffff - 1_000_000) | (0x3_ffff - greatest) << AT_OFFSET
}

#[inline(always)]
fn looked(words: &[u64]) -> bool {
    words.iter().fold(0, |all, word| all | word) & GUARDS == 0
}

#[inline(always)]
fn judged(words: &[u64]) -> bool {
    let over = [over(200_000), over(100_000), over(100_000), over(100_000)];
    let mut all = 0;
    for stream in words.chunks_exact(4) {
        for place in 0..4 {
            all |= stream[place] | (stream[place] + over[place]);
        }
    }
    all & GUARDS == 0
}

impl Carried {
    /// The words of the streams that are whole and of the one that comes.
    #[inline(always)]
    fn used(&self) -> &[u64] {
        &self.words[..(self.streams * 4 + 4).min(64)]
    }

    #[inline(always)]
    fn tested<const TEST: u8>(&self) -> bool {
        match TEST {
            LOOKS_AT_USED => looked(self.used()),
            LOOKS => looked(&self.words),
            JUDGES_USED => judged(self.used()),
            JUDGES => judged(&self.words),
            _ => true,
        }
    }

    #[inline(always)]
    fn keep(&mut self, place: usize, value: u32, at: u32) {
        self.words[(self.streams * 4 + place) & 63] |= u64::from(value) << at;
    }

    #[inline(always)]
    fn opened(&self) -> usize {
        match self.version {
            _ if self.streams == self.count => END,
            1 => TASK,
            _ => DEADLINE,
        }
    }

    /// A field is whole: the one that comes, or a refusal.
    #[inline(always)]
    fn took(&mut self, value: u32) -> Result<usize, u64> {
        let place = self.whole;
        let within = |least, greatest| match least <= value && value <= greatest {
            true => Ok(()),
            false => Err(7u64),
        };
        Ok(match self.field {
            VERSION if value != 1 && value != 2 => return Err(6),
            VERSION => {
                self.version = value;
                COUNT
            }
            COUNT => {
                within(0, 16)?;
                self.count = value as usize;
                self.opened()
            }
            DEADLINE => {
                within(1, 200_000)?;
                self.keep(0, value, AT_OFFSET);
                if self.version == 1 {
                    TUPLES
                } else {
                    STAGES
                }
            }
            STAGES => {
                self.stages = value as usize;
                self.keep(1, value, AT_LESS);
                TASK
            }
            TASK => {
                self.keep(place, value, AT_TASK);
                COST
            }
            COST => {
                within(1, 65_535)?;
                self.keep(place, value, AT_COST);
                if place < self.stages {
                    self.whole += 1;
                    TASK
                } else {
                    self.whole = 0;
                    if self.version == 1 {
                        DEADLINE
                    } else {
                        TUPLES
                    }
                }
            }
            TUPLES => {
                self.tuples = value as usize;
                self.keep(2, value, AT_LESS);
                self.low = 0;
                CYCLE
            }
            CYCLE => {
                within(0, 1_000_000)?;
                self.keep(place, value, 0);
                OFFSET
            }
            _ => {
                within(self.low, if place == 0 { 0 } else { 100_000 })?;
                if place > 0 {
                    self.keep(place, value, AT_OFFSET);
                }
                self.low = value;
                if place < self.tuples {
                    self.whole += 1;
                    CYCLE
                } else {
                    self.whole = 0;
                    self.streams += 1;
                    self.opened()
                }
            }
        })
    }

    #[inline(always)]
    fn refuse(&mut self, number: u64) {
        *self = FRESH;
        (self.field, self.need, self.refusal) = (END, u32::MAX, number);
    }

    #[inline(always)]
    fn byte(&mut self, byte: u8) {
        if self.field == END {
            return match self.refusal {
                0 => self.refuse(10),
                _ => (),
            };
        }
        self.bits = self.bits << 8 | u64::from(byte);
        self.have += 8;
        while self.need <= self.have {
            self.have -= self.need;
            let value = (self.bits >> self.have) as u32;
            self.bits &= (1 << self.have) - 1;
            match self.took(value) {
                Ok(END) if self.bits != 0 => return self.refuse(10),
                Ok(field) => (self.field, self.need) = (field, WIDTHS[field]),
                Err(number) => return self.refuse(number),
            }
        }
    }
}

/// Fed, or 12.
#[inline(never)]
fn feed<const TEST: u8>(carried: &mut Carried, piece: &[u8]) -> bool {
    if !carried.tested::<TEST>() {
        return false;
    }
    for &byte in piece {
        carried.byte(byte);
    }
    true
}

#[inline(never)]
fn close<const TEST: u8>(carried: &Carried, k: usize) -> u64 {
    if !carried.tested::<TEST>() {
        return 12 << 32;
    }
    match (carried.field, carried.refusal) {
        (END, 0) => carried
            .words
            .get(4 * k)
            .map_or(0, |word| word >> AT_OFFSET & 0x3_ffff),
        (END, number) => number << 32,
        _ => 5 << 32,
    }
}

/// As [`crate::proved::fed`].
pub fn fed<const TEST: u8>(bytes: &[u8], size: usize, k: usize) -> u64 {
    let mut carried = FRESH;
    for piece in bytes.chunks(if size == 0 { bytes.len().max(1) } else { size }) {
        if !feed::<TEST>(black_box(&mut carried), piece) {
            return 12 << 32;
        }
    }
    close::<TEST>(black_box(&carried), k)
}
