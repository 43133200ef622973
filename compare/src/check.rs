//! The resumable check of request 7, by lengths, and what a late demand is made of.

use std::fmt;

use crate::load::{self, Verdict};
use crate::refusal::Refusal;
use crate::set::Set;
use crate::sheet;

/// "The resume position holds its set and the next length".
#[derive(Clone, Copy, Debug, PartialEq, Eq)]
pub struct Position {
    /// The set.
    pub set: Set,
    /// The next length to test.
    pub next: u32,
}

/// What a call of the check answers: "the count tested, and the next position or the verdict; never
/// both".
#[derive(Clone, Copy, Debug, PartialEq, Eq)]
pub enum Went {
    /// Lengths are left.
    On {
        /// How many lengths were tested.
        tested: u32,
        /// The next length to test.
        next: u32,
    },
    /// "with the verdict none is given"
    Ended {
        /// How many lengths were tested.
        tested: u32,
        /// Accept or late.
        verdict: Verdict,
    },
}

impl fmt::Display for Went {
    /// "`tested COUNT next L`, `tested COUNT accept`, `tested COUNT late I W`"
    fn fmt(&self, out: &mut fmt::Formatter) -> fmt::Result {
        match self {
            Went::On { tested, next } => write!(out, "tested {tested} next {next}"),
            Went::Ended { tested, verdict } => write!(out, "tested {tested} {verdict}"),
        }
    }
}

/// "lengths are tested in order from 1 to H plus the set's greatest deadline plus its greatest
/// offset (both 0 for the empty set)": the last of them, or the verdict of a set that the opening
/// stops: "7, 8 and overload are answered at the opening, before any length."
pub fn last_length(set: &Set) -> Result<u32, Verdict> {
    let last = load::lengths_to_test(set)?;
    // At most 1,000,000 + 200,000 + 100,000.
    Ok(last as u32)
}

/// "`open(set)`: 7, 8 or overload, or a position: the set and the next length, 1."
pub fn open(set: &Set) -> Result<Position, Verdict> {
    last_length(set)?;
    Ok(Position { set: *set, next: 1 })
}

impl Position {
    /// "Lengths from the position's on, n of them, or fewer where the verdict falls first: at the
    /// first late length, or accept with the last length". "Refusals: 12, with nothing tested, for
    /// a set the opening stops or a length not among those named."
    pub fn go(&self, count: u32) -> Result<Went, Refusal> {
        let last = match last_length(&self.set) {
            Ok(last) if (1..=last).contains(&self.next) => last,
            _ => return Err(Refusal::NotWellFormed),
        };
        let left = last - self.next + 1;
        // The lengths before this one are tested, if none of them is late.
        let end = self.next + count.min(left);
        let late = load::least_late_length(&self.set, self.next.into(), u64::from(end) - 1);
        Ok(match late {
            Some((length, demand)) => Went::Ended {
                // "the last tested plus one [...] less the one it began with"
                tested: length as u32 + 1 - self.next,
                verdict: Verdict::Late { length, demand },
            },
            None if end > last => Went::Ended {
                tested: end - self.next,
                verdict: Verdict::Accept,
            },
            None => Went::On {
                tested: end - self.next,
                next: end,
            },
        })
    }

    /// The same with the demand of each length by its definition.
    pub fn go_each_length(&self, count: u32) -> Result<Went, Refusal> {
        let last = last_length(&self.set).map_err(|_| Refusal::NotWellFormed)?;
        if self.next == 0 || self.next > last {
            return Err(Refusal::NotWellFormed);
        }
        let mut tested = 0;
        let mut next = self.next;
        while tested < count {
            let demand = load::demand(&self.set, next).map_err(|_| Refusal::NotWellFormed)?;
            tested += 1;
            if demand > u64::from(next) {
                let length = u64::from(next);
                let verdict = Verdict::Late { length, demand };
                return Ok(Went::Ended { tested, verdict });
            }
            if next == last {
                let verdict = Verdict::Accept;
                return Ok(Went::Ended { tested, verdict });
            }
            next += 1;
        }
        Ok(Went::On { tested, next })
    }
}

/// A part of a demand.
#[derive(Clone, Copy, Debug, PartialEq, Eq)]
pub enum Part {
    /// "a line for each stream that is due (`stream K cost C times E`)"
    Due {
        /// The stream.
        stream: usize,
        /// The sum of its costs.
        cost: u64,
        /// Its event limit at I - d.
        times: u64,
    },
    /// "each task that blocks (`task T blocked by B`)"
    Blocked {
        /// The task.
        task: u32,
        /// Its blocking, above 0.
        by: u64,
    },
}

impl Part {
    /// How much of the demand it is.
    pub fn amount(self) -> u64 {
        match self {
            Part::Due { cost, times, .. } => cost * times,
            Part::Blocked { by, .. } => by,
        }
    }
}

impl fmt::Display for Part {
    fn fmt(&self, out: &mut fmt::Formatter) -> fmt::Result {
        match self {
            Part::Due {
                stream,
                cost,
                times,
            } => write!(out, "stream {stream} cost {cost} times {times}"),
            Part::Blocked { task, by } => write!(out, "task {task} blocked by {by}"),
        }
    }
}

/// "what W is made of": the streams that are due at a length, in order, then the tasks that block,
/// in order. The set must be valid.
pub fn parts(set: &Set, length: u64) -> Vec<Part> {
    let streams = set.used_streams().iter().enumerate();
    let due = streams.filter_map(|(stream, of_set)| {
        let since = length.checked_sub(u64::from(of_set.deadline))?;
        Some(Part::Due {
            stream,
            cost: of_set.cost_of_all_stages(),
            times: of_set.event_limit(since),
        })
    });
    let blocked = load::blocking_of_each_task(set, length)
        .filter(|&(_, by)| by > 0)
        .map(|(task, by)| Part::Blocked { task, by });
    due.chain(blocked).collect()
}

/// What the program `check` prints for the bytes of set.bin: "prints the verdict; for `late I W` it
/// then prints what W is made of [...]: their sum is W". "A refused sheet prints only `refused N`."
pub fn run(sheet: &[u8], requests: u32) -> String {
    let set = match sheet::read(sheet, requests) {
        Ok(set) => set,
        Err(refusal) => return format!("{refusal}\n"),
    };
    let verdict = load::verdict(&set);
    let mut output = format!("{verdict}\n");
    if let Verdict::Late { length, demand } = verdict {
        let parts = parts(&set, length);
        let sum: u64 = parts.iter().map(|part| part.amount()).sum();
        assert_eq!(sum, demand, "the parts do not make up the demand");
        for part in parts {
            output += &format!("{part}\n");
        }
    }
    output
}
