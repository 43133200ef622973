//! The load check: every length is tested in order, with the demand summed anew over all tuples.
//!
//! What does not depend on the length is computed once: the length at which each tuple is first
//! due, and between two deadlines the blocking.

use super::set::{Set, Tuple};

pub enum Verdict {
    Accept,
    /// The least late length.
    Late(u64),
    Overload,
    Refused(u8),
}

/// A tuple of a stream: first due at a length, and again at every cycle after it.
struct Row {
    cost: u32,
    first: u32,
    cycle: u32,
}

fn rows(set: &Set) -> Vec<Row> {
    let mut rows = Vec::new();
    for stream in set.used_streams() {
        let cost = stream.cost();
        for tuple in stream.used_tuples() {
            let cycle = match *tuple {
                Tuple::Once(_) => u32::MAX,
                Tuple::Every(cycle, _) => cycle,
            };
            rows.push(Row {
                cost,
                first: stream.deadline + tuple.offset(),
                cycle,
            });
        }
    }
    rows
}

fn work(rows: &[Row], length: u32) -> u64 {
    let mut work = 0;
    for row in rows {
        if row.first <= length {
            work += u64::from(row.cost) * u64::from((length - row.first) / row.cycle + 1);
        }
    }
    work
}

fn blocking(set: &Set, length: u32) -> u64 {
    let mut urgent = [false; 16];
    let mut held = [0; 16];
    for stream in set.used_streams() {
        for stage in stream.used_stages() {
            if stream.deadline <= length {
                urgent[stage.task] = true;
            } else {
                held[stage.task] = held[stage.task].max(u64::from(stage.cost) - 1);
            }
        }
    }
    (0..16)
        .filter(|&task| urgent[task])
        .map(|task| held[task])
        .sum()
}

fn gcd(a: u64, b: u64) -> u64 {
    if b == 0 {
        a
    } else {
        gcd(b, a % b)
    }
}

fn cyclic(set: &Set) -> impl Iterator<Item = (u64, u64)> + '_ {
    set.used_streams().iter().flat_map(|stream| {
        let cost = u64::from(stream.cost());
        stream
            .used_tuples()
            .iter()
            .filter_map(move |tuple| match *tuple {
                Tuple::Once(_) => None,
                Tuple::Every(cycle, _) => Some((cost, u64::from(cycle))),
            })
    })
}

pub fn verdict(set: &Set) -> Verdict {
    if !set.valid() {
        return Verdict::Refused(7);
    }
    let mut h = 1;
    for (_, cycle) in cyclic(set) {
        h = h / gcd(h, cycle) * cycle;
        if h > 1_000_000 {
            return Verdict::Refused(8);
        }
    }
    if cyclic(set)
        .map(|(cost, cycle)| cost * (h / cycle))
        .sum::<u64>()
        > h
    {
        return Verdict::Overload;
    }
    let streams = set.used_streams();
    let offsets = streams
        .iter()
        .flat_map(|s| s.used_tuples())
        .map(|t| t.offset());
    let mut deadlines: Vec<u32> = streams.iter().map(|s| s.deadline).collect();
    deadlines.sort_unstable();
    let end = h as u32 + deadlines.last().unwrap_or(&0) + offsets.max().unwrap_or(0) + 1;
    deadlines.push(end);
    let rows = rows(set);
    let mut from = 1;
    for stop in deadlines {
        let blocked = blocking(set, from);
        for length in from..stop {
            let demand = work(&rows, length) + blocked;
            if demand > length.into() {
                return Verdict::Late(length.into());
            }
        }
        from = stop;
    }
    Verdict::Accept
}
