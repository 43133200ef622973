//! "The load check": demand, H, long-run load and the verdicts.

use std::fmt;

use crate::refusal::Refusal;
use crate::set::{Set, Stream, GREATEST_TASK};

/// "8 exactly if H is above 1,000,000"
pub const GREATEST_H: u64 = 1_000_000;

/// What the load check says of a set.
#[derive(Clone, Copy, Debug, PartialEq, Eq)]
pub enum Verdict {
    /// The set is accepted.
    Accept,
    /// "late, with the least I where demand(I) is above I and that demand"
    Late {
        /// The least I.
        length: u64,
        /// That demand.
        demand: u64,
    },
    /// "overload if long-run load is above H"
    Overload,
    /// 7 or 8.
    Refused(Refusal),
}

impl fmt::Display for Verdict {
    /// "The first line is the verdict (accept, late I demand, overload, refused N)"
    fn fmt(&self, out: &mut fmt::Formatter) -> fmt::Result {
        match self {
            Verdict::Accept => write!(out, "accept"),
            Verdict::Late { length, demand } => write!(out, "late {length} {demand}"),
            Verdict::Overload => write!(out, "overload"),
            Verdict::Refused(refusal) => write!(out, "{refusal}"),
        }
    }
}

/// The demand that is asked for. "Asked for an invalid set, demand and event limit are refused
/// with 7 and give 0 [...] An I that is asked for is a 32-bit number."
pub fn demand(set: &Set, length: u32) -> Result<u64, Refusal> {
    if !set.valid() {
        return Err(Refusal::OutOfRule);
    }
    Ok(demand_of_valid(set, u64::from(length)))
}

/// "Demand(I), for I of 0 or more, is the sum over streams with d not above I of c times
/// E(I - d), plus the blocking of each task." "Demand and long-run load take the sum of a stream's
/// costs."
fn demand_of_valid(set: &Set, length: u64) -> u64 {
    let work: u64 = set
        .used_streams()
        .iter()
        .filter(|stream| !deadline_above(stream, length))
        .map(|stream| {
            stream.cost_of_all_stages() * stream.event_limit(length - u64::from(stream.deadline))
        })
        .sum();
    work + blocking_of_all_tasks(set, length)
}

fn blocking_of_all_tasks(set: &Set, length: u64) -> u64 {
    blocking_of_each_task(set, length)
        .map(|(_, blocking)| blocking)
        .sum()
}

/// The tasks in order, each with its blocking at a length. The set must be valid.
pub(crate) fn blocking_of_each_task(
    set: &Set,
    length: u64,
) -> impl Iterator<Item = (u32, u64)> + '_ {
    (0..=GREATEST_TASK).map(move |task| (task, blocking(set, task, length)))
}

/// "The blocking of a task is 0 unless it has a stream with d not above I; then it is the largest
/// c - 1 among its streams with d above I, or 0 if there are none."
///
/// With stages: "a task's blocking uses each stage on it separately and counts a stream as urgent
/// if any of its stages is there"; "0 unless some stream with d not above I has a stage on it; then
/// the largest c - 1 among the stages on it of streams with d above I".
fn blocking(set: &Set, task: u32, length: u64) -> u64 {
    let mut has_urgent = false;
    let mut largest = 0;
    for stream in set.used_streams() {
        for stage in stream.used_stages().iter().filter(|s| s.task == task) {
            if deadline_above(stream, length) {
                largest = largest.max(u64::from(stage.cost) - 1);
            } else {
                has_urgent = true;
            }
        }
    }
    if has_urgent {
        largest
    } else {
        0
    }
}

/// "d above I"
fn deadline_above(stream: &Stream, length: u64) -> bool {
    u64::from(stream.deadline) > length
}

/// The cost (of all stages) and the cycle of each cyclic tuple of a valid set.
fn cyclic_tuples(set: &Set) -> impl Iterator<Item = (u64, u64)> + '_ {
    set.used_streams().iter().flat_map(|stream| {
        stream
            .used_tuples()
            .iter()
            .filter_map(|tuple| tuple.cycle())
            .map(|cycle| (stream.cost_of_all_stages(), u64::from(cycle)))
    })
}

/// "H is the least common multiple of all cycles, 1 where there are none." None stands for an H
/// above 1,000,000: H is a multiple of the least common multiple of any of the cycles, so it can
/// be given up as soon as that is above.
///
/// The set must be valid.
pub fn least_common_cycle(set: &Set) -> Option<u64> {
    let mut h = 1;
    for (_, cycle) in cyclic_tuples(set) {
        h = h / greatest_common_divisor(h, cycle) * cycle;
        if h > GREATEST_H {
            return None;
        }
    }
    Some(h)
}

fn greatest_common_divisor(a: u64, b: u64) -> u64 {
    let (mut a, mut b) = (a, b);
    while b != 0 {
        (a, b) = (b, a % b);
    }
    a
}

/// "Long-run load is the sum of c times H / z over the cyclic tuples."
fn long_run_load(set: &Set, h: u64) -> u64 {
    cyclic_tuples(set)
        .map(|(cost, cycle)| cost * (h / cycle))
        .sum()
}

/// The last length that has to be tested: H plus the greatest deadline plus the greatest offset.
///
/// "Accept speaks of every I, not of those tested." At an I of the greatest deadline plus the
/// greatest offset or more nothing is blocked and every tuple counts, so demand(I + H) is
/// demand(I) plus the long-run load, and that is at most H once overload is ruled out. A length
/// above the last is then late only if the one H below it is.
fn last_length(set: &Set, h: u64) -> u64 {
    let deadlines = set.used_streams().iter().map(|stream| stream.deadline);
    let offsets = set
        .used_streams()
        .iter()
        .flat_map(|stream| stream.used_tuples())
        .map(|tuple| tuple.offset());
    h + u64::from(deadlines.max().unwrap_or(0)) + u64::from(offsets.max().unwrap_or(0))
}

/// "Verdicts, in this order: 7 for an invalid set; 8 exactly if H is above 1,000,000; overload if
/// long-run load is above H; [...]": the last length to test, or the verdict that comes before
/// any length is tested.
pub(crate) fn lengths_to_test(set: &Set) -> Result<u64, Verdict> {
    if !set.valid() {
        return Err(Verdict::Refused(Refusal::OutOfRule));
    }
    let Some(h) = least_common_cycle(set) else {
        return Err(Verdict::Refused(Refusal::LongCycle));
    };
    if long_run_load(set, h) > h {
        return Err(Verdict::Overload);
    }
    Ok(last_length(set, h))
}

/// The verdict, by the definition of demand at each length in order.
pub fn verdict_each_length(set: &Set) -> Verdict {
    let last = match lengths_to_test(set) {
        Ok(last) => last,
        Err(verdict) => return verdict,
    };
    for length in 1..=last {
        let demand = demand_of_valid(set, length);
        if demand > length {
            return Verdict::Late { length, demand };
        }
    }
    Verdict::Accept
}

/// The verdict, at each length in order, with the demand carried from one length to the next.
pub fn verdict(set: &Set) -> Verdict {
    let last = match lengths_to_test(set) {
        Ok(last) => last,
        Err(verdict) => return verdict,
    };
    match least_late_length(set, 1, last) {
        Some((length, demand)) => Verdict::Late { length, demand },
        None => Verdict::Accept,
    }
}

/// How many lengths a check that tests each of them tests of this set, counted up to a bound.
pub fn lengths_tested(set: &Set, at_most: u64) -> u64 {
    match lengths_to_test(set) {
        Ok(last) => {
            let last = last.min(at_most);
            least_late_length(set, 1, last).map_or(last, |(length, _)| length)
        }
        Err(_) => 0,
    }
}

/// "the least I where demand(I) is above I and that demand", among the lengths from the first,
/// which is not 0, up to the last.
///
/// An event of a tuple adds its cost at the length d + a, for a cycle again at every z after it,
/// and blocking can change only at a length that is the deadline of some stream.
pub(crate) fn least_late_length(set: &Set, first: u64, last: u64) -> Option<(u64, u64)> {
    let before = first - 1;
    let mut tuples = CountedTuple::all_of(set);
    let mut work: u64 = tuples
        .iter_mut()
        .map(|tuple| tuple.cost * tuple.events_up_to(before))
        .sum();
    let mut blocking = blocking_of_all_tasks(set, before);
    for length in first..=last {
        for tuple in tuples.iter_mut().filter(|tuple| tuple.next == length) {
            work += tuple.cost;
            tuple.next += tuple.cycle;
        }
        let is_deadline = |stream: &Stream| u64::from(stream.deadline) == length;
        if set.used_streams().iter().any(is_deadline) {
            blocking = blocking_of_all_tasks(set, length);
        }
        let demand = work + blocking;
        if demand > length {
            return Some((length, demand));
        }
    }
    None
}

/// A tuple whose events are counted length by length.
struct CountedTuple {
    cost: u64,
    /// The length at which its next event counts.
    next: u64,
    /// From one event to the next; after "once" beyond any length.
    cycle: u64,
}

impl CountedTuple {
    const NEVER: u64 = 1 << 40;

    /// How many of its events count at a length, which lies before the next; then that next one is
    /// the first behind it.
    fn events_up_to(&mut self, length: u64) -> u64 {
        if self.next > length {
            return 0;
        }
        let events = (length - self.next) / self.cycle + 1;
        self.next += events * self.cycle;
        events
    }

    fn all_of(set: &Set) -> Vec<CountedTuple> {
        let mut all = Vec::new();
        for stream in set.used_streams() {
            for tuple in stream.used_tuples() {
                all.push(CountedTuple {
                    cost: stream.cost_of_all_stages(),
                    next: u64::from(stream.deadline) + u64::from(tuple.offset()),
                    cycle: tuple.cycle().map_or(Self::NEVER, u64::from),
                });
            }
        }
        all
    }
}
