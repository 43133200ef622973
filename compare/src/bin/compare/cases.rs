//! Random cases for the programs that read a sheet and standard input: a trace or a recording.

use second::requests::DOOR;
use second::set::Set;
use second::sheet;
use second::trace::Step;

use crate::random::Random;
use crate::recordings;
use crate::sets;
use crate::sheets;
use crate::traces::{self, Lengths};

/// What a program is given.
pub struct Case {
    /// The bytes of set.bin, none if the file is missing.
    pub sheet: Option<Vec<u8>>,
    /// Standard input.
    pub input: Vec<u8>,
}

/// Cases to be run at once, of all sizes.
pub const TO_RUN: Lengths = Lengths {
    usual: 150,
    long: 3_000,
    long_one_in: 60,
    full_one_in: 40,
    millions_one_in: 4_000,
};

/// Cases to be stored, so most of them are small.
pub const TO_STORE: Lengths = Lengths {
    usual: 40,
    long: 500,
    long_one_in: 100,
    full_one_in: 120,
    millions_one_in: 0,
};

/// Traces of a few steps, so that none and each number of padding bits come up.
const SHORT: Lengths = Lengths {
    usual: 4,
    long: 20,
    long_one_in: 10,
    full_one_in: 1_000,
    millions_one_in: 0,
};

/// At most so many calls are recorded.
const MOST_CALLS: usize = 30_000;

/// Which sheets the cases have.
#[derive(Clone, Copy)]
pub enum Sheets {
    /// About one in three is damaged.
    Mixed,
    /// About one in four is damaged.
    MoreGood,
    /// Each is damaged: no set is read from it.
    Damaged,
}

/// A case of mixed sheets.
pub fn make(random: &mut Random, lengths: &Lengths, requests: u32) -> Case {
    make_of(Sheets::Mixed, random, lengths, requests)
}

/// A set's sheet, damaged until it is none.
fn no_sheet(random: &mut Random, set: &Set, requests: u32) -> Vec<u8> {
    loop {
        let bytes = sheets::damaged(random, set, requests);
        if sheet::read(&bytes, requests).is_err() {
            return bytes;
        }
    }
}

/// A set's sheet, in so many of 36 cases as it should be; of the rest most are damaged.
fn mixed(random: &mut Random, set: &Set, good: u64, requests: u32) -> Option<Vec<u8>> {
    match random.below(36) {
        case if case < good => Some(sheets::of_set(set)),
        34 => Some(Vec::new()),
        35 => None,
        _ => Some(sheets::damaged(random, set, requests)),
    }
}

/// A sheet, and the set that is read from it, or the one that was meant.
fn sheet_and_set(which: Sheets, random: &mut Random, requests: u32) -> (Option<Vec<u8>>, Set) {
    loop {
        let set = sets::any(random, requests);
        let sheet = match which {
            Sheets::Damaged => Some(no_sheet(random, &set, requests)),
            Sheets::Mixed => mixed(random, &set, 24, requests),
            Sheets::MoreGood => mixed(random, &set, 27, requests),
        };
        let read = sheet::read(sheet.as_deref().unwrap_or(&[]), requests).unwrap_or(set);
        if sets::worth_judging(random, &read) {
            return (sheet, read);
        }
    }
}

/// A case of such sheets, made for the requests up to a number in force.
pub fn make_of(which: Sheets, random: &mut Random, lengths: &Lengths, requests: u32) -> Case {
    let millions = lengths.millions_one_in;
    if requests >= DOOR && millions > 0 && random.one_in(millions) {
        return over_millions(random, requests);
    }
    let (sheet, set) = sheet_and_set(which, random, requests);
    let input = traces::make(random, &set, lengths, requests);
    Case { sheet, input }
}

/// A case of a million units or more, with posts at doors that stay shut for long.
fn over_millions(random: &mut Random, requests: u32) -> Case {
    let set = loop {
        let set = sets::with_long_doors(random, requests);
        if sets::worth_judging(random, &set) {
            break set;
        }
    };
    let units = random.between(1_000_000, 2_200_000);
    Case {
        sheet: Some(sheets::of_set(&set)),
        input: traces::over_millions(random, &set, units, requests),
    }
}

/// A case for the replay program: a sheet and a recording.
pub fn to_replay(random: &mut Random, requests: u32) -> Case {
    let (sheet, set) = sheet_and_set(Sheets::MoreGood, random, requests);
    let calls = lengthened(traces::steps(random, &set, &TO_RUN, requests), random);
    let input = recordings::any(random, &calls);
    Case { sheet, input }
}

/// A case for the record program: a trace, and no sheet.
pub fn to_record(random: &mut Random, requests: u32) -> Case {
    let set = sets::small(random, requests);
    let input = match random.below(50) {
        0 => lengthened_trace(random, &set, requests),
        1..=10 => traces::make(random, &set, &SHORT, requests),
        _ => traces::make(random, &set, &TO_RUN, requests),
    };
    Case { sheet: None, input }
}

/// A case for the check program: a sheet, and no input.
pub fn to_check(random: &mut Random, requests: u32) -> Case {
    let sheet = loop {
        let set = sets::to_check(random, requests);
        let sheet = mixed(random, &set, 32, requests);
        let read = sheet::read(sheet.as_deref().unwrap_or(&[]), requests).unwrap_or(set);
        if sets::worth_judging(random, &read) {
            break sheet;
        }
    };
    Case {
        sheet,
        input: Vec::new(),
    }
}

/// The calls, now and then many times over.
fn lengthened(calls: Vec<Step>, random: &mut Random) -> Vec<Step> {
    if !random.one_in(50) {
        return calls;
    }
    let mut longer = calls.repeat(random.index(40) + 1);
    longer.truncate(MOST_CALLS);
    longer
}

/// A trace of many steps.
fn lengthened_trace(random: &mut Random, set: &Set, requests: u32) -> Vec<u8> {
    let mut trace = traces::make(random, set, &TO_RUN, requests);
    trace = trace.repeat(random.index(40) + 1);
    trace.truncate(2 * MOST_CALLS);
    trace
}
