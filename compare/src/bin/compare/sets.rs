//! Random sets in rule.
//!
//! Before request 4 is in force all have version 1, and they are those that were made before there
//! were stages.

use second::check::{Position, Went};
use second::load::{self, Verdict};
use second::requests::STAGES;
use second::set::{
    Set, Stage, Stream, Tuple, GREATEST_COST, GREATEST_CYCLE, GREATEST_DEADLINE, GREATEST_OFFSET,
    GREATEST_TASK, STAGE_PLACES, STREAM_PLACES, TUPLE_PLACES,
};
use second::sheet::{VERSION_1, VERSION_2};

use crate::random::Random;

/// The version of a set that is to be made.
fn version(random: &mut Random, requests: u32) -> u32 {
    if requests < STAGES {
        return VERSION_1;
    }
    random.pick(&[VERSION_1, VERSION_2, VERSION_2])
}

/// Any set in rule: most have small numbers, some have numbers at the edges.
pub fn any(random: &mut Random, requests: u32) -> Set {
    let version = version(random, requests);
    match random.below(20) {
        0..=4 => small_of(random, version),
        5..=12 => close_to_late(random, version),
        13..=14 => full_load(random, version),
        15..=16 => at_edges(random, version),
        17..=18 => crowded(random, version),
        _ => long_cycle(random, version),
    }
}

/// A few streams with small numbers.
pub fn small(random: &mut Random, requests: u32) -> Set {
    let version = version(random, requests);
    small_of(random, version)
}

/// The same of a version.
pub fn small_of(random: &mut Random, version: u32) -> Set {
    let count = random.pick(&[0, 1, 1, 2, 2, 2, 3, 3, 3, 4, 4, 5]);
    small_streams(random, version, count, 40)
}

/// As many streams and tuples as there is room for, with small numbers.
fn crowded(random: &mut Random, version: u32) -> Set {
    let count = random.between(10, STREAM_PLACES as u32);
    small_streams(random, version, count as usize, 40)
}

/// The version of the sets from which one is taken to be run: mostly 2, once there is one.
pub fn version_to_run_on_time(random: &mut Random, requests: u32) -> u32 {
    if requests >= STAGES && !random.one_in(6) {
        VERSION_2
    } else {
        VERSION_1
    }
}

/// Streams that often fit on a processor together, sharing tasks.
pub fn to_run_on_time(random: &mut Random, version: u32) -> Set {
    let count = random.pick(&[1, 2, 2, 3, 3, 4, 4, 5, 6, 8, 11, 16]);
    let longest_deadline = random.pick(&[10, 40, 40, 150]);
    small_streams(random, version, count, longest_deadline)
}

/// The same of streams that all have doors, of each kind.
pub fn to_run_on_time_with_doors(random: &mut Random, version: u32) -> Set {
    let mut set = to_run_on_time(random, version);
    let count = set.count as usize;
    put_small_doors(random, &mut set.streams[..count]);
    set
}

/// A few streams with small numbers, most of them with doors, of each kind.
pub fn small_with_doors(random: &mut Random, requests: u32) -> Set {
    let version = version(random, requests);
    let mut set = loop {
        let set = small_of(random, version);
        if set.count > 0 {
            break set;
        }
    };
    let with_doors = random.between(1, set.count) as usize;
    put_small_doors(random, &mut set.streams[..with_doors]);
    set
}

/// Puts tuples that have a door in place of the streams' own.
fn put_small_doors(random: &mut Random, streams: &mut [Stream]) {
    let common = random.pick(&[12, 20, 24, 30, 60, 120, 720]);
    for stream in streams {
        let cycle = match random.below(6) {
            0 => random.between(1, 9),
            _ => divisor(random, common),
        };
        let offset = match random.below(6) {
            0 => 0,
            1 => cycle,
            2 => cycle + random.between(1, 12),
            _ => random.between(0, cycle),
        };
        put_door(random, stream, cycle, offset);
    }
}

/// Puts tuples that have a door: once at 0, every z, or once at 0 and every z from a.
fn put_door(random: &mut Random, stream: &mut Stream, cycle: u32, offset: u32) {
    stream.tuples = [Tuple::UNUSED; TUPLE_PLACES];
    stream.tuple_count = 1;
    match random.below(6) {
        0 => {}
        1..=2 => stream.tuples[0] = Tuple::Every { cycle, offset: 0 },
        _ => {
            stream.tuple_count = 2;
            stream.tuples[1] = Tuple::Every { cycle, offset };
        }
    }
}

/// A few streams with doors that stay shut for long. Most such sets have an H above 1,000,000, and
/// are judged at once.
pub fn with_long_doors(random: &mut Random, requests: u32) -> Set {
    let version = version(random, requests);
    let mut set = small_with_doors(random, requests);
    set.version = version;
    for stream in &mut set.streams[..set.count as usize] {
        if version == VERSION_1 {
            stream.stage_count = 1;
            stream.stages[1..].fill(Stage::UNUSED);
        }
        let cycle = match random.below(4) {
            0 => GREATEST_CYCLE,
            1 => GREATEST_CYCLE - random.between(0, 3),
            _ => random.between(100_000, GREATEST_CYCLE),
        };
        let offset = at_edge(random, 0, GREATEST_OFFSET);
        put_door(random, stream, cycle, offset);
    }
    set
}

/// A few streams for two parties: about half of them can be posted as one likes, the others have
/// doors that soon open again. Costs are large enough for messages to stay a while.
pub fn to_share(random: &mut Random, requests: u32) -> Set {
    let version = version(random, requests);
    let count = random.pick(&[1, 2, 2, 3, 3, 4, 5, 6, 16]);
    let longest_deadline = random.pick(&[10, 40, 150]);
    let mut set = small_streams(random, version, count, longest_deadline);
    for stream in &mut set.streams[..count] {
        for stage in &mut stream.stages[..stream.stage_count as usize] {
            stage.cost = random.pick(&[1, 3, 10, 30, 100]);
        }
        if random.one_in(2) {
            let (cycle, offset) = (random.between(1, 9), random.between(0, 9));
            put_door(random, stream, cycle, offset);
        } else {
            stream.tuples = [Tuple::UNUSED; TUPLE_PLACES];
            stream.tuple_count = 2;
        }
    }
    set
}

/// Streams with small numbers on few tasks. Their cycles mostly divide one number, so that H
/// stays small.
fn small_streams(random: &mut Random, version: u32, count: usize, longest_deadline: u32) -> Set {
    let common = random.pick(&[12, 20, 24, 30, 60, 120, 720]);
    let tasks = random.between(1, 4);
    let streams: Vec<Stream> = (0..count)
        .map(|_| {
            let mut stream = Stream::UNUSED;
            stream.stage_count = 1;
            stream.stages[0].task = random.between(0, tasks - 1);
            stream.stages[0].cost = random.between(1, 6);
            stream.deadline = random.between(1, longest_deadline);
            put_small_tuples(random, &mut stream, common);
            if version == VERSION_2 {
                put_more_small_stages(random, &mut stream, tasks);
            }
            stream
        })
        .collect();
    Set::of_version(version, &streams)
}

/// Puts up to three stages behind the first, on the tasks below a number, now and then on the task
/// of the stage before.
fn put_more_small_stages(random: &mut Random, stream: &mut Stream, tasks: u32) {
    let count = random.pick(&[1, 2, 2, 2, 3, 3, 4]);
    for place in 1..count {
        let task = match random.below(4) {
            0 => stream.stages[place - 1].task,
            _ => random.between(0, tasks - 1),
        };
        let cost = random.between(1, 6);
        stream.stages[place] = Stage { task, cost };
    }
    stream.stage_count = count as u32;
}

/// Divides the cost of a stream's one stage among several, on the tasks below a number.
fn divide_cost(random: &mut Random, stream: &mut Stream, tasks: u32) {
    let most = stream.stages[0].cost.min(STAGE_PLACES as u32);
    let count = random.between(1, most) as usize;
    for place in 1..count {
        // Each of the stages before keeps at least 1.
        let largest = (0..place)
            .max_by_key(|&other| stream.stages[other].cost)
            .unwrap_or(0);
        let cost = random.between(1, stream.stages[largest].cost - 1);
        stream.stages[largest].cost -= cost;
        let task = random.between(0, tasks - 1);
        stream.stages[place] = Stage { task, cost };
    }
    stream.stage_count = count as u32;
}

fn put_small_tuples(random: &mut Random, stream: &mut Stream, common: u32) {
    if random.one_in(5) {
        // As jittered cycles are written, with any offset up to the cycle: the sets are the same
        // whether jitter goes one way or both.
        let cycle = divisor(random, common);
        let offset = cycle - random.between(0, cycle);
        stream.tuple_count = 2;
        stream.tuples[0] = Tuple::Once { offset: 0 };
        stream.tuples[1] = Tuple::Every { cycle, offset };
        return;
    }
    stream.tuple_count = random.pick(&[1, 1, 1, 2, 2, 3, 4]);
    let mut offset = 0;
    for tuple in &mut stream.tuples[..stream.tuple_count as usize] {
        *tuple = match random.below(8) {
            0..=2 => Tuple::Once { offset },
            3 => Tuple::Every {
                cycle: random.between(1, 30),
                offset,
            },
            _ => Tuple::Every {
                cycle: divisor(random, common),
                offset,
            },
        };
        offset += random.pick(&[0, 1, 2, 5, 12]);
    }
}

fn divisor(random: &mut Random, number: u32) -> u32 {
    loop {
        let divisor = random.between(1, number);
        if number.is_multiple_of(divisor) {
            return divisor;
        }
    }
}

/// An accepted set whose costs can hardly be raised, and the last late set that was tried on the
/// way to it.
pub struct Tight {
    pub accepted: Set,
    pub late: Option<Set>,
}

/// Raises the costs of a set from 1 as long as it is accepted.
pub fn tight(random: &mut Random, mut set: Set) -> Option<Tight> {
    let count = set.count as usize;
    let mut stages = 0;
    for stream in &mut set.streams[..count] {
        for stage in &mut stream.stages[..stream.stage_count as usize] {
            stage.cost = 1;
            stages += 1;
        }
    }
    if count == 0 || load::verdict(&set) != Verdict::Accept {
        return None;
    }
    let mut late = None;
    let mut step = random.pick(&[1, 4, 16]);
    for _ in 0..24 + 4 * (stages - count) {
        let mut tried = set;
        let stream = &mut tried.streams[random.index(count)];
        let stage = match stream.stage_count {
            1 => 0,
            stages => random.index(stages as usize),
        };
        stream.stages[stage].cost += step;
        match load::verdict(&tried) {
            Verdict::Accept => set = tried,
            verdict => {
                if let Verdict::Late { .. } = verdict {
                    late = Some(tried);
                }
                step = (step / 2).max(1);
            }
        }
    }
    Some(Tight {
        accepted: set,
        late,
    })
}

/// A set that is just accepted or just late, mostly.
fn close_to_late(random: &mut Random, version: u32) -> Set {
    for _ in 0..10 {
        let set = small_of(random, version);
        if let Some(tight) = tight(random, set) {
            return match tight.late {
                Some(late) if !random.one_in(3) => late,
                _ => tight.accepted,
            };
        }
    }
    small_of(random, version)
}

/// A set to be checked length by length: most are just accepted or just late, with many streams and
/// blocking; few are overload.
pub fn to_check(random: &mut Random, requests: u32) -> Set {
    loop {
        let version = version(random, requests);
        let set = match random.below(4) {
            0 => any(random, requests),
            _ => {
                let set = to_run_on_time(random, version);
                match tight(random, set) {
                    Some(Tight {
                        late: Some(late), ..
                    }) if !random.one_in(3) => late,
                    Some(tight) => tight.accepted,
                    None => continue,
                }
            }
        };
        if load::lengths_tested(&set, 1) > 0 || random.one_in(4) {
            return set;
        }
    }
}

/// A set whose long-run load is H, or one cycle's cost more or less.
fn full_load(random: &mut Random, version: u32) -> Set {
    let cycle = random.between(5, 30);
    let count = random.between(1, 4);
    let mut left = match random.below(3) {
        0 => cycle - 1,
        1 => cycle,
        _ => cycle + 1,
    };
    let mut streams = Vec::new();
    for place in 0..count {
        let cost = if place + 1 == count {
            left
        } else {
            random.between(1, left - (count - place - 1))
        };
        left -= cost;
        let mut stream = Stream::UNUSED;
        stream.stage_count = 1;
        stream.stages[0].task = random.between(0, count);
        stream.stages[0].cost = cost;
        stream.deadline = random.pick(&[cycle, cycle + 1, 2 * cycle]);
        stream.tuple_count = 1;
        stream.tuples[0] = Tuple::Every { cycle, offset: 0 };
        if version == VERSION_2 {
            divide_cost(random, &mut stream, count + 1);
        }
        streams.push(stream);
        if left == 0 {
            break;
        }
    }
    Set::of_version(version, &streams)
}

/// A set with numbers at the edges of the rules.
fn at_edges(random: &mut Random, version: u32) -> Set {
    let count = random.pick(&[0, 1, 1, 2, 3, 15, 16]);
    let streams: Vec<Stream> = (0..count)
        .map(|_| stream_at_edges(random, version))
        .collect();
    Set::of_version(version, &streams)
}

/// A set of which every place is used, so that its sheet is as long as one can be. Seldom the last
/// stream lacks a stage or a tuple.
pub fn full(random: &mut Random, version: u32) -> Set {
    let streams: Vec<Stream> = (0..STREAM_PLACES)
        .map(|place| {
            let enough = |stream: &Stream| {
                (version == VERSION_1 || stream.stage_count as usize == STAGE_PLACES)
                    && stream.tuple_count as usize == TUPLE_PLACES
            };
            let any_will_do = place + 1 == STREAM_PLACES && random.one_in(4);
            loop {
                let stream = stream_at_edges(random, version);
                if any_will_do || enough(&stream) {
                    return stream;
                }
            }
        })
        .collect();
    Set::of_version(version, &streams)
}

fn stream_at_edges(random: &mut Random, version: u32) -> Stream {
    let mut stream = Stream::UNUSED;
    stream.stage_count = match version {
        VERSION_1 => 1,
        _ => random.between(1, STAGE_PLACES as u32),
    };
    for stage in &mut stream.stages[..stream.stage_count as usize] {
        stage.task = at_edge(random, 0, GREATEST_TASK);
        stage.cost = at_edge(random, 1, GREATEST_COST);
    }
    stream.deadline = at_edge(random, 1, GREATEST_DEADLINE);
    stream.tuple_count = random.between(1, TUPLE_PLACES as u32);
    let mut offset = 0;
    for tuple in &mut stream.tuples[..stream.tuple_count as usize] {
        *tuple = match random.below(3) {
            0 => Tuple::Once { offset },
            1 => Tuple::Every {
                cycle: random.pick(&[GREATEST_CYCLE, GREATEST_CYCLE / 2, 1]),
                offset,
            },
            _ => Tuple::Every {
                cycle: at_edge(random, 1, GREATEST_CYCLE),
                offset,
            },
        };
        offset = at_edge(random, offset, GREATEST_OFFSET);
    }
    stream
}

/// A number at one of the two bounds, next to it, or anywhere between.
fn at_edge(random: &mut Random, least: u32, greatest: u32) -> u32 {
    match random.below(5) {
        0 => least,
        1 => (least + 1).min(greatest),
        2 => greatest,
        3 => greatest.saturating_sub(1).max(least),
        _ => random.between(least, greatest),
    }
}

/// Cycles with a least common multiple of about 1,000,000.
const LONG_CYCLES: &[&[u32]] = &[
    &[1_000_000],
    &[1_000_000, 500_000, 1],
    &[999_999],
    &[999_999, 333_333],
    &[999_999, 1_000_000],
    &[64, 15_625],
    &[64, 15_626],
    &[999, 1_000],
    &[1_000, 1_001],
    &[997, 1_003],
    &[1_000, 1_001, 1_003],
    &[99, 100, 101],
    &[101, 102, 103],
];

/// A set with an H of about 1,000,000: exactly that, a little below and a little above.
fn long_cycle(random: &mut Random, version: u32) -> Set {
    let cycles = random.pick(LONG_CYCLES);
    let streams: Vec<Stream> = cycles
        .iter()
        .map(|&cycle| {
            let mut stream = Stream::UNUSED;
            stream.stage_count = 1;
            stream.stages[0].task = random.between(0, 2);
            stream.stages[0].cost = random.between(1, 3);
            stream.deadline = random.pick(&[4, 40, 999, 1_000, 20_000]);
            stream.tuple_count = 1;
            stream.tuples[0] = Tuple::Every { cycle, offset: 0 };
            if version == VERSION_2 {
                put_more_small_stages(random, &mut stream, 3);
            }
            stream
        })
        .collect();
    Set::of_version(version, &streams)
}

/// Whether a check that tests each length has at most so much work with a set: lengths times
/// tuples.
fn judged_within(set: &Set, work: u64) -> bool {
    let tuples: u64 = set
        .streams
        .iter()
        .map(|stream| u64::from(stream.tuple_count))
        .sum();
    let lengths = work / (tuples + 1);
    load::lengths_tested(set, lengths + 1) <= lengths
}

/// Whether a set is to be judged in this case: the quick ones always, the others seldom, so that
/// many cases can be compared in a second.
pub fn worth_judging(random: &mut Random, set: &Set) -> bool {
    !set.valid()
        || judged_within(set, 100_000)
        || random.one_in(50) && judged_within(set, 2_000_000)
        || random.one_in(2_000)
}

/// Whether a call of the resumable check that tests up to so many lengths is to be made in this
/// case, in the same way.
pub fn worth_testing(random: &mut Random, position: &Position, count: u32) -> bool {
    let tuples: u64 = position
        .set
        .streams
        .iter()
        .map(|stream| u64::from(stream.tuple_count))
        .sum();
    let within = |work: u64| {
        let lengths = (work / (tuples + 1)) as u32;
        match position.go(count.min(lengths + 1)) {
            Ok(Went::On { tested, .. } | Went::Ended { tested, .. }) => tested <= lengths,
            Err(_) => true,
        }
    };
    within(100_000) || random.one_in(50) && within(2_000_000) || random.one_in(2_000)
}

#[cfg(test)]
mod tests {
    use super::*;
    use second::requests::{LESS_STACK, RENDERED};

    #[test]
    fn all_are_in_rule() {
        let mut random = Random::new(1);
        for requests in [LESS_STACK, RENDERED] {
            for _ in 0..3_000 {
                let set = any(&mut random, requests);
                assert!(set.valid(), "{set:?}");
                assert!(set.version == VERSION_1 || requests >= STAGES);
            }
        }
    }

    #[test]
    fn stages_of_every_kind_come_up() {
        let mut random = Random::new(5);
        let mut versions = [0; 3];
        let mut counts = [0; STAGE_PLACES + 1];
        let (mut in_a_row, mut shared) = (0, 0);
        for _ in 0..3_000 {
            let set = any(&mut random, RENDERED);
            versions[set.version as usize] += 1;
            for (place, stream) in set.used_streams().iter().enumerate() {
                counts[stream.stage_count as usize] += 1;
                let stages = stream.used_stages();
                in_a_row += u64::from(stages.windows(2).any(|pair| pair[0].task == pair[1].task));
                let later = &stages[1..];
                let others = set.used_streams()[..place].iter();
                shared += u64::from(
                    others
                        .flat_map(|other| other.used_stages())
                        .any(|stage| later.iter().any(|own| own.task == stage.task)),
                );
            }
        }
        assert!(versions[1] > 500 && versions[2] > 500, "{versions:?}");
        assert!(counts[1..].iter().all(|&count| count > 500), "{counts:?}");
        assert!(in_a_row > 500 && shared > 500, "{in_a_row} {shared}");
    }

    #[test]
    fn full_sets_have_the_longest_sheets() {
        let mut random = Random::new(6);
        for (version, longest) in [(VERSION_1, 378), (VERSION_2, 502)] {
            let lengths: Vec<usize> = (0..100)
                .map(|_| {
                    let set = full(&mut random, version);
                    assert!(set.valid());
                    crate::sheets::of_set(&set).len()
                })
                .collect();
            assert_eq!(lengths.iter().max(), Some(&longest));
            assert!(lengths.iter().filter(|&&length| length == longest).count() > 50);
        }
    }

    #[test]
    fn a_divided_cost_is_the_sum_of_its_parts() {
        let mut random = Random::new(7);
        for cost in 1..40 {
            let mut stream = Stream::UNUSED;
            stream.stage_count = 1;
            stream.stages[0].cost = cost;
            divide_cost(&mut random, &mut stream, 3);
            assert_eq!(stream.cost_of_all_stages(), u64::from(cost));
            assert!(stream.used_stages().iter().all(|stage| stage.cost > 0));
        }
    }

    #[test]
    fn the_two_ways_to_a_verdict_agree() {
        let mut random = Random::new(4);
        for _ in 0..3_000 {
            let set = any(&mut random, RENDERED);
            if judged_within(&set, 20_000) {
                assert_eq!(
                    load::verdict(&set),
                    load::verdict_each_length(&set),
                    "{set:?}"
                );
            }
        }
    }

    #[test]
    fn every_verdict_comes_up_for_every_version() {
        for version in [VERSION_1, VERSION_2] {
            let mut random = Random::new(2);
            let (mut accept, mut late, mut overload, mut refused) = (0, 0, 0, 0);
            for _ in 0..900 {
                let set = any(&mut random, RENDERED);
                if set.version != version || !judged_within(&set, 1_000_000) {
                    continue;
                }
                match load::verdict(&set) {
                    Verdict::Accept => accept += 1,
                    Verdict::Late { .. } => late += 1,
                    Verdict::Overload => overload += 1,
                    Verdict::Refused(_) => refused += 1,
                }
            }
            for count in [accept, late, overload, refused] {
                assert!(count > 10, "{accept} {late} {overload} {refused}");
            }
        }
    }

    #[test]
    fn a_tight_set_is_accepted_and_its_neighbour_late() {
        for version in [VERSION_1, VERSION_2] {
            let mut random = Random::new(3);
            let mut with_late = 0;
            for _ in 0..200 {
                let set = small_of(&mut random, version);
                if let Some(tight) = tight(&mut random, set) {
                    assert_eq!(load::verdict(&tight.accepted), Verdict::Accept);
                    if let Some(late) = tight.late {
                        assert!(matches!(load::verdict(&late), Verdict::Late { .. }));
                        with_late += 1;
                    }
                }
            }
            assert!(with_late > 20, "version {version}: {with_late}");
        }
    }
}
