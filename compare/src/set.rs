//! "Streams and sets": what a set is, when it is valid, its event limits, the jittered cycle.
//!
//! A set here can hold any number in any place, so that sets out of rule can be asked about.
//!
//! Streams have stages and sets a version whether request 4 is in force or not: before it, "a
//! task" and "a cost c" are those of the one stage, and every set that can be put or read has
//! version 1.

use crate::refusal::Refusal;
use crate::requests::JITTER_BOTH_WAYS;

/// "A set has 0 to 16 streams."
pub const STREAM_PLACES: usize = 16;
/// "1 to 4 tuples"
pub const TUPLE_PLACES: usize = 4;
/// "A stream gets 1 to 4 stages"
pub const STAGE_PLACES: usize = 4;
/// "Set: its version, 1 or 2"
pub const GREATEST_VERSION: u32 = 2;
/// "a task (0 to 15 ...)"
pub const GREATEST_TASK: u32 = 15;
/// "a cost c (1 to 65,535)"
pub const GREATEST_COST: u32 = 65_535;
/// "a relative deadline d (1 to 200,000)"
pub const GREATEST_DEADLINE: u32 = 200_000;
/// "every cycle z (1 to 1,000,000)"
pub const GREATEST_CYCLE: u32 = 1_000_000;
/// "Offsets are 0 to 100,000"
pub const GREATEST_OFFSET: u32 = 100_000;

/// "A tuple is either once at an offset, or every cycle z (1 to 1,000,000) from an offset."
#[derive(Clone, Copy, Debug, PartialEq, Eq)]
pub enum Tuple {
    /// Once at an offset.
    Once {
        /// The offset a.
        offset: u32,
    },
    /// Every cycle from an offset.
    Every {
        /// The cycle z.
        cycle: u32,
        /// The offset a.
        offset: u32,
    },
}

impl Tuple {
    /// "an unused tuple once at 0"
    pub const UNUSED: Tuple = Tuple::Once { offset: 0 };

    /// The offset a.
    pub fn offset(self) -> u32 {
        match self {
            Tuple::Once { offset } | Tuple::Every { offset, .. } => offset,
        }
    }

    /// The cycle z, where there is one.
    pub fn cycle(self) -> Option<u32> {
        match self {
            Tuple::Once { .. } => None,
            Tuple::Every { cycle, .. } => Some(cycle),
        }
    }

    /// Cycle "1 to 1,000,000", offset "0 to 100,000".
    fn in_rule(self) -> bool {
        self.cycle()
            .is_none_or(|cycle| (1..=GREATEST_CYCLE).contains(&cycle))
            && self.offset() <= GREATEST_OFFSET
    }

    /// One tuple's part of E(I): with "offset a not above I", "1 (once) or
    /// floor((I - a) / z) + 1 (every)".
    fn events(self, length: u64) -> u64 {
        let offset = u64::from(self.offset());
        if offset > length {
            return 0;
        }
        match self.cycle() {
            None => 1,
            Some(cycle) => (length - offset) / u64::from(cycle) + 1,
        }
    }
}

/// A stage: "each a task and a cost".
#[derive(Clone, Copy, Debug, PartialEq, Eq)]
pub struct Stage {
    /// The task.
    pub task: u32,
    /// The cost c.
    pub cost: u32,
}

impl Stage {
    /// "unused stage places zero"
    pub const UNUSED: Stage = Stage { task: 0, cost: 0 };

    /// "a task (0 to 15 ...), a cost c (1 to 65,535)"
    fn in_rule(self) -> bool {
        self.task <= GREATEST_TASK && (1..=GREATEST_COST).contains(&self.cost)
    }
}

/// "A stream has a task [...], a cost c [...], a relative deadline d [...] and 1 to 4 tuples."
/// "Stream: `stages` 1 to 4, each a task and a cost [...]. They take the place of the stream's
/// task and cost."
#[derive(Clone, Copy, Debug, PartialEq, Eq)]
pub struct Stream {
    /// How many of the stage places are used.
    pub stage_count: u32,
    /// The stage places.
    pub stages: [Stage; STAGE_PLACES],
    /// The relative deadline d.
    pub deadline: u32,
    /// How many of the tuple places are used.
    pub tuple_count: u32,
    /// The tuple places.
    pub tuples: [Tuple; TUPLE_PLACES],
}

impl Stream {
    /// "Unused places are zero, an unused tuple once at 0."
    pub const UNUSED: Stream = Stream {
        stage_count: 0,
        stages: [Stage::UNUSED; STAGE_PLACES],
        deadline: 0,
        tuple_count: 0,
        tuples: [Tuple::UNUSED; TUPLE_PLACES],
    };

    /// The stages of a stream in rule, in order.
    pub fn used_stages(&self) -> &[Stage] {
        &self.stages[..self.stage_count as usize]
    }

    /// "the sum of a stream's costs", of a stream in rule.
    pub fn cost_of_all_stages(&self) -> u64 {
        self.used_stages()
            .iter()
            .map(|stage| u64::from(stage.cost))
            .sum()
    }

    /// The tuples of a stream in rule.
    pub fn used_tuples(&self) -> &[Tuple] {
        &self.tuples[..self.tuple_count as usize]
    }

    /// The rules of one stream of the set.
    fn in_rule(&self) -> bool {
        (1..=STAGE_PLACES as u32).contains(&self.stage_count)
            && self.stages_in_rule()
            && (1..=GREATEST_DEADLINE).contains(&self.deadline)
            && (1..=TUPLE_PLACES as u32).contains(&self.tuple_count)
            && self.tuples_in_rule()
    }

    /// "each a task and a cost (1 to 65,535); unused stage places zero"
    fn stages_in_rule(&self) -> bool {
        let (used, unused) = self.stages.split_at(self.stage_count as usize);
        used.iter().all(|stage| stage.in_rule())
            && unused.iter().all(|stage| *stage == Stage::UNUSED)
    }

    /// "Offsets are 0 to 100,000; the first is 0 and they never fall. [...] an unused tuple once
    /// at 0."
    fn tuples_in_rule(&self) -> bool {
        let (used, unused) = self.tuples.split_at(self.tuple_count as usize);
        used.iter().all(|tuple| tuple.in_rule())
            && used[0].offset() == 0
            && used
                .windows(2)
                .all(|pair| pair[0].offset() <= pair[1].offset())
            && unused.iter().all(|tuple| *tuple == Tuple::UNUSED)
    }

    /// "Event limit E(I), for I of 0 or more: the sum over tuples with offset a not above I of
    /// 1 (once) or floor((I - a) / z) + 1 (every)."
    ///
    /// The stream must be in rule.
    pub fn event_limit(&self, length: u64) -> u64 {
        self.used_tuples()
            .iter()
            .map(|tuple| tuple.events(length))
            .sum()
    }
}

/// "A set has 0 to 16 streams, numbered from 0 in order." "A set records its version".
#[derive(Clone, Copy, Debug, PartialEq, Eq)]
pub struct Set {
    /// How many of the stream places are used.
    pub count: u32,
    /// The stream places.
    pub streams: [Stream; STREAM_PLACES],
    /// The version.
    pub version: u32,
}

impl Set {
    /// The set of no streams. "a refusal's empty set is version 1"
    pub const EMPTY: Set = Set {
        count: 0,
        streams: [Stream::UNUSED; STREAM_PLACES],
        version: 1,
    };

    /// The set of version 1 of the given streams, at most 16, in order.
    pub fn of(streams: &[Stream]) -> Set {
        let mut set = Set::EMPTY;
        set.count = streams.len() as u32;
        set.streams[..streams.len()].copy_from_slice(streams);
        set
    }

    /// The same of a version. "A version 1 and a version 2 set with the same streams are two sets
    /// and have two sheets."
    pub fn of_version(version: u32, streams: &[Stream]) -> Set {
        Set {
            version,
            ..Set::of(streams)
        }
    }

    /// The streams of a valid set.
    pub fn used_streams(&self) -> &[Stream] {
        &self.streams[..self.count as usize]
    }

    /// Count 0 to 16, every stream in rule, "Unused places are zero". "Any other set is invalid."
    /// "a version 1 set has one stage everywhere; any other version, or more stages in version 1,
    /// is invalid"
    pub fn valid(&self) -> bool {
        if self.count as usize > STREAM_PLACES {
            return false;
        }
        let (used, unused) = self.streams.split_at(self.count as usize);
        used.iter().all(Stream::in_rule)
            && unused.iter().all(|stream| *stream == Stream::UNUSED)
            && match self.version {
                1 => used.iter().all(|stream| stream.stage_count == 1),
                version => version == GREATEST_VERSION,
            }
    }
}

/// The event limit that is asked for. "Asked for an invalid set, demand and event limit are
/// refused with 7 and give 0; the event limit of a stream not in the set likewise. An I that is
/// asked for is a 32-bit number."
pub fn event_limit(set: &Set, stream: u32, length: u32) -> Result<u64, Refusal> {
    if !set.valid() || stream >= set.count {
        return Err(Refusal::OutOfRule);
    }
    Ok(set.streams[stream as usize].event_limit(u64::from(length)))
}

/// "A jittered cycle (z, j) is written as once at 0, and every z from z - j. It is refused with 7
/// exactly if z is 0 or above 1,000,000, j is above z, or z - j is above 100,000; no tuples are
/// then returned."
///
/// With request 2 in force, 2j stands for j: "Source document 000 (7.1.2) has the second tuple
/// start at z - 2j. Every jittered cycle is to be written so. Refusals: 7 now when 2j is above z or
/// z - 2j is above 100,000, and for z as before." "`j` is any 32-bit number: 2j may not overflow."
pub fn jittered_cycle(cycle: u32, jitter: u32, requests: u32) -> Result<[Tuple; 2], Refusal> {
    let ways = if requests >= JITTER_BOTH_WAYS { 2 } else { 1 };
    let (z, nearer) = (u64::from(cycle), ways * u64::from(jitter));
    if cycle == 0 || cycle > GREATEST_CYCLE || nearer > z {
        return Err(Refusal::OutOfRule);
    }
    // At most the cycle, so it is a 32-bit number.
    let offset = (z - nearer) as u32;
    if offset > GREATEST_OFFSET {
        return Err(Refusal::OutOfRule);
    }
    Ok([Tuple::Once { offset: 0 }, Tuple::Every { cycle, offset }])
}
