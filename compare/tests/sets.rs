//! Sets: their rules, event limits, jittered cycles, demand and verdicts.

mod common;

use common::{every, full_set, once, set_b, set_w12, set_w3, stream};
use second::load::{demand, least_common_cycle, verdict, verdict_each_length, Verdict};
use second::refusal::Refusal;
use second::requests::{JITTER_BOTH_WAYS, REPLAY};
use second::set::{event_limit, jittered_cycle, Set, Tuple};

fn late(length: u64, demand: u64) -> Verdict {
    Verdict::Late { length, demand }
}

fn one(tuples: &[Tuple]) -> Set {
    Set::of(&[stream(0, 1, 1, tuples)])
}

/// A jittered cycle before request 2 is in force.
fn one_way(cycle: u32, jitter: u32) -> Result<[Tuple; 2], Refusal> {
    let tuples = jittered_cycle(cycle, jitter, 0);
    assert_eq!(jittered_cycle(cycle, jitter, REPLAY), tuples);
    tuples
}

/// A jittered cycle with request 2 in force.
fn both_ways(cycle: u32, jitter: u32) -> Result<[Tuple; 2], Refusal> {
    jittered_cycle(cycle, jitter, JITTER_BOTH_WAYS)
}

fn both_verdicts(set: &Set) -> Verdict {
    let found = verdict(set);
    assert_eq!(found, verdict_each_length(set));
    found
}

#[test]
fn w1_w2_demand_of_set_b() {
    assert_eq!(demand(&set_b(), 5), Ok(5));
    assert_eq!(demand(&set_b(), 8), Ok(7));
    assert_eq!(both_verdicts(&set_b()), Verdict::Accept);
}

#[test]
fn w3_to_w6_blocking_within_a_task() {
    let w3 = set_w3(0, 6);
    assert_eq!(demand(&w3, 5), Ok(7));
    assert_eq!(demand(&w3, 4), Ok(0));
    assert_eq!(both_verdicts(&w3), late(5, 7));
    let w4 = set_w3(1, 6);
    assert_eq!(demand(&w4, 20), Ok(10));
    assert_eq!(both_verdicts(&w4), Verdict::Accept);
    let w5 = set_w3(0, 4);
    assert_eq!(demand(&w5, 5), Ok(5));
    assert_eq!(both_verdicts(&w5), Verdict::Accept);
    assert_eq!(both_verdicts(&set_w3(0, 5)), late(5, 6));
}

#[test]
fn w7_w8_full_load_and_overload() {
    let unit = |task| stream(task, 1, 1, &[every(1, 0)]);
    let w7 = Set::of(&[unit(0)]);
    for length in [0, 1, 2, 100, 4_294_967_295] {
        assert_eq!(demand(&w7, length), Ok(u64::from(length)));
    }
    assert_eq!(both_verdicts(&w7), Verdict::Accept);
    assert_eq!(
        both_verdicts(&Set::of(&[unit(0), unit(1)])),
        Verdict::Overload
    );
}

#[test]
fn w9_two_messages_once() {
    let set = Set::of(&[stream(0, 3, 3, &[once(0)]), stream(1, 3, 3, &[once(0)])]);
    assert_eq!(both_verdicts(&set), late(3, 6));
}

#[test]
fn w10_long_cycle() {
    let set =
        |cycles: [u32; 2]| Set::of(&cycles.map(|cycle| stream(0, 1, 200_000, &[every(cycle, 0)])));
    let refused = Verdict::Refused(Refusal::LongCycle);
    assert_eq!(both_verdicts(&set([999_999, 1_000_000])), refused);
    // 64 * 15,625 is exactly 1,000,000.
    assert_eq!(least_common_cycle(&set([64, 15_625])), Some(1_000_000));
    assert_eq!(verdict(&set([64, 15_625])), Verdict::Accept);
    assert_eq!(least_common_cycle(&set([1_000, 1_001])), None);
}

#[test]
fn w11_empty_set() {
    assert_eq!(both_verdicts(&Set::EMPTY), Verdict::Accept);
    assert_eq!(demand(&Set::EMPTY, 4_294_967_295), Ok(0));
    assert_eq!(least_common_cycle(&Set::EMPTY), Some(1));
}

#[test]
fn verdicts_come_in_order() {
    // 8 comes before overload, overload before late.
    let mut set = Set::of(&[
        stream(0, 65_535, 1, &[every(999_999, 0)]),
        stream(1, 65_535, 1, &[every(1_000_000, 0), every(1, 0)]),
    ]);
    assert_eq!(both_verdicts(&set), Verdict::Refused(Refusal::LongCycle));
    set.streams[0].tuples[0] = every(1, 0);
    assert_eq!(both_verdicts(&set), Verdict::Overload);
    // 7 comes before 8.
    set.streams[0].tuples[0] = every(999_999, 0);
    set.streams[0].stages[0].cost = 0;
    assert_eq!(both_verdicts(&set), Verdict::Refused(Refusal::OutOfRule));
}

#[test]
fn lateness_beyond_the_longest_deadline_is_found() {
    // Four messages one unit apart: the third comes too soon, at a length above the deadline.
    let burst = Set::of(&[stream(0, 2, 3, &[once(0), once(1), once(2), once(3)])]);
    assert_eq!(both_verdicts(&burst), late(5, 6));
    // One unit is left free for ever, and the second message of the other stream needs it again.
    let later = Set::of(&[
        stream(0, 1, 2, &[every(1, 0)]),
        stream(1, 1, 5, &[once(0), once(100)]),
    ]);
    assert_eq!(both_verdicts(&later), late(105, 106));
}

#[test]
fn every_task_can_hold_one_started_message() {
    // At length 4 the urgent streams need 2, and each of the two tasks can hold 2 more.
    let set = Set::of(&[
        stream(0, 1, 4, &[once(0)]),
        stream(0, 3, 40, &[once(0)]),
        stream(1, 1, 4, &[once(0)]),
        stream(1, 3, 40, &[once(0)]),
        stream(2, 9, 40, &[once(0)]),
    ]);
    assert_eq!(demand(&set, 4), Ok(1 + 1 + 2 + 2));
    assert_eq!(both_verdicts(&set), late(4, 6));
}

#[test]
fn event_limits() {
    let set = one(&[once(0), every(10, 5), once(5)]);
    let limits: Vec<u64> = [0, 4, 5, 14, 15, 25]
        .into_iter()
        .map(|length| event_limit(&set, 0, length).unwrap())
        .collect();
    assert_eq!(limits, [1, 1, 3, 3, 4, 5]);
    assert_eq!(
        event_limit(&one(&[every(1, 0); 4]), 0, u32::MAX),
        Ok(4 << 32)
    );
}

#[test]
fn limits_and_demands_refused() {
    let refused = Err(Refusal::OutOfRule);
    assert_eq!(event_limit(&set_b(), 3, 0), refused);
    assert_eq!(event_limit(&set_b(), u32::MAX, 0), refused);
    let mut invalid = set_b();
    invalid.streams[2].stages[0].cost = 0;
    assert_eq!(event_limit(&invalid, 0, 0), refused);
    assert_eq!(demand(&invalid, 0), refused);
}

#[test]
fn jittered_cycles() {
    for (cycle, jitter, offset) in [
        (10, 0, 10),
        (10, 3, 7),
        (10, 10, 0),
        (100_001, 1, 100_000),
        (1_000_000, 900_000, 100_000),
        (1_000_000, 1_000_000, 0),
    ] {
        assert_eq!(
            one_way(cycle, jitter),
            Ok([once(0), every(cycle, offset)]),
            "{cycle} {jitter}"
        );
    }
    for (cycle, jitter) in [
        (0, 0),
        (1_000_001, 1_000_000),
        (10, 11),
        (1_000_000, 899_999),
        (100_001, 0),
        (10, u32::MAX),
        (u32::MAX, u32::MAX),
    ] {
        let refused = Err(Refusal::OutOfRule);
        assert_eq!(one_way(cycle, jitter), refused, "{cycle} {jitter}");
    }
}

#[test]
fn cycles_jittered_both_ways() {
    for (cycle, jitter, offset) in [
        (20, 0, 20),
        (20, 2, 16),
        (20, 9, 2),
        (20, 10, 0),
        (21, 10, 1),
        (1, 0, 1),
        (2, 1, 0),
        (100_000, 0, 100_000),
        (100_001, 1, 99_999),
        (100_002, 1, 100_000),
        (999_999, 450_000, 99_999),
        (1_000_000, 450_000, 100_000),
        (1_000_000, 500_000, 0),
    ] {
        assert_eq!(
            both_ways(cycle, jitter),
            Ok([once(0), every(cycle, offset)]),
            "{cycle} {jitter}"
        );
    }
    for (cycle, jitter) in [
        (0, 0),
        (0, 1),
        (1_000_001, 450_001),
        (1_000_001, 500_000),
        (1, 1),
        (20, 11),
        (20, 20),
        (21, 11),
        (1_000_000, 449_999),
        (1_000_000, 500_001),
        (999_999, 449_999),
        (100_001, 0),
        (100_003, 1),
        (u32::MAX, u32::MAX),
        (u32::MAX, u32::MAX / 2),
    ] {
        let refused = Err(Refusal::OutOfRule);
        assert_eq!(both_ways(cycle, jitter), refused, "{cycle} {jitter}");
    }
}

#[test]
fn a_jitter_of_which_twice_is_more_than_32_bits() {
    for cycle in [0, 1, 10, 20, 1_000_000, u32::MAX] {
        // What is left of 2j in 32 bits would be 0, 10 and so on.
        for jitter in [1 << 31, (1 << 31) + 5, (1 << 31) + 450_000, u32::MAX] {
            assert_eq!(both_ways(cycle, jitter), Err(Refusal::OutOfRule));
        }
    }
}

#[test]
fn jittered_cycles_keep_the_rules_and_count_both_ways() {
    for cycle in 1..=40 {
        for jitter in 0..=cycle / 2 {
            let tuples = both_ways(cycle, jitter).unwrap();
            let set = one(&tuples);
            assert!(set.valid());
            // The earliest that one can come after another: z - 2j, and every z after that.
            let limit = |length| event_limit(&set, 0, length).unwrap();
            let nearest = cycle - 2 * jitter;
            if nearest > 0 {
                assert_eq!(limit(nearest - 1), 1);
            }
            assert_eq!(limit(nearest), 2);
            assert_eq!(limit(nearest + cycle - 1), 2);
            assert_eq!(limit(nearest + cycle), 3);
        }
    }
}

#[test]
fn sets_at_the_edges_of_the_rules_are_valid() {
    assert!(full_set().valid());
    assert!(Set::EMPTY.valid());
    assert!(set_w12().valid());
    assert!(one(&[once(0), once(0), every(1, 0), every(1, 1)]).valid());
}

#[test]
fn sets_out_of_rule_are_invalid() {
    type Change = fn(&mut Set);
    let changes: &[Change] = &[
        |set| set.count = 0,
        |set| set.count = 2,
        |set| set.count = 4,
        |set| set.count = 17,
        |set| set.count = u32::MAX,
        |set| set.streams[0].stages[0].task = 16,
        |set| set.streams[0].stages[0].cost = 0,
        |set| set.streams[0].stages[0].cost = 65_536,
        |set| set.streams[0].deadline = 0,
        |set| set.streams[0].deadline = 200_001,
        |set| set.streams[0].tuple_count = 0,
        |set| set.streams[0].tuple_count = 5,
        |set| set.streams[0].tuple_count = u32::MAX,
        |set| set.streams[0].tuples[0] = every(0, 0),
        |set| set.streams[0].tuples[0] = every(1_000_001, 0),
        |set| set.streams[0].tuples[0] = every(20, 1),
        |set| set.streams[0].tuples[0] = once(1),
        |set| set.streams[0].tuples[1] = once(1),
        |set| set.streams[0].tuples[3] = every(0, 0),
        |set| {
            set.streams[0].tuple_count = 2;
            set.streams[0].tuples[1] = once(100_001);
        },
        |set| {
            set.streams[0].tuple_count = 3;
            set.streams[0].tuples[1] = once(5);
            set.streams[0].tuples[2] = every(7, 4);
        },
        |set| set.streams[3].stages[0].task = 1,
        |set| set.streams[3].stages[0].cost = 1,
        |set| set.streams[3].deadline = 1,
        |set| set.streams[15].tuple_count = 1,
        |set| set.streams[15].tuples[3] = once(1),
        |set| set.streams[15].tuples[0] = every(0, 0),
    ];
    for (number, change) in changes.iter().enumerate() {
        let mut set = set_b();
        change(&mut set);
        assert!(!set.valid(), "change {number}");
        assert_eq!(both_verdicts(&set), Verdict::Refused(Refusal::OutOfRule));
    }
}
