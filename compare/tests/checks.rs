//! The resumable check of request 7, and what a late demand is made of.

mod common;

use common::{every, once, said_from, set_b, set_of_stages, set_w3, staged, stream};
use second::check::{self, last_length, open, parts, Position, Went};
use second::load::{demand, verdict, verdict_each_length, Verdict};
use second::refusal::Refusal;
use second::requests::{RENDERED, RESUMABLE};
use second::set::Set;
use second::sheet::{fields, pack};

fn said(script: &str) -> String {
    said_from(RESUMABLE, script)
}

/// Accepted and late sets of both versions with few lengths.
fn sets() -> Vec<Set> {
    vec![
        Set::EMPTY,
        Set::of_version(2, &[]),
        set_b(),
        set_w3(0, 6),
        set_w3(0, 5),
        set_w3(0, 4),
        set_w3(1, 6),
        set_of_stages(),
        Set::of(&[stream(0, 3, 3, &[once(0)]), stream(1, 3, 3, &[once(0)])]),
        Set::of(&[stream(0, 1, 1, &[every(1, 0)])]),
        Set::of(&[
            stream(0, 2, 9, &[once(0), every(12, 4), once(17)]),
            stream(0, 7, 30, &[every(18, 0), once(5)]),
        ]),
        Set::of_version(
            2,
            &[
                staged(&[(1, 2), (1, 3)], 10, &[every(20, 0)]),
                staged(&[(1, 5), (7, 9)], 40, &[once(0), every(40, 33)]),
            ],
        ),
    ]
}

/// W8.
fn overloaded() -> Set {
    let one = stream(0, 1, 1, &[every(1, 0)]);
    let mut other = one;
    other.stages[0].task = 1;
    Set::of(&[one, other])
}

fn long_cycle() -> Set {
    Set::of(&[
        stream(0, 1, 4, &[every(999_999, 0)]),
        stream(0, 1, 4, &[every(1_000_000, 0)]),
    ])
}

fn invalid() -> Set {
    let mut set = set_b();
    set.count = 4;
    set
}

#[test]
fn the_lengths_of_a_set() {
    assert_eq!(last_length(&Set::EMPTY), Ok(1));
    assert_eq!(last_length(&set_b()), Ok(20 + 20));
    let offsets = Set::of(&[
        stream(0, 1, 9, &[once(0), every(12, 4)]),
        stream(0, 1, 30, &[every(18, 0), once(5)]),
    ]);
    assert_eq!(last_length(&offsets), Ok(36 + 30 + 5));
    let refused = |number| Err(Verdict::Refused(number));
    assert_eq!(last_length(&invalid()), refused(Refusal::OutOfRule));
    assert_eq!(last_length(&long_cycle()), refused(Refusal::LongCycle));
    assert_eq!(last_length(&overloaded()), Err(Verdict::Overload));
    let longest = Set::of(&[stream(0, 1, 200_000, &[every(1_000_000, 0), once(100_000)])]);
    assert_eq!(last_length(&longest), Ok(1_300_000));
}

#[test]
fn the_opening_stops_what_has_no_lengths() {
    for set in [invalid(), long_cycle(), overloaded()] {
        assert_eq!(open(&set), Err(verdict(&set)));
        for next in [0, 1, 2, 5] {
            for count in [0, 1, u32::MAX] {
                let position = Position { set, next };
                assert_eq!(position.go(count), Err(Refusal::NotWellFormed));
                assert_eq!(position.go_each_length(count), Err(Refusal::NotWellFormed));
            }
        }
    }
}

#[test]
fn every_call_from_every_length_by_the_definition() {
    for set in sets() {
        assert_eq!(open(&set), Ok(Position { set, next: 1 }));
        let last = last_length(&set).expect("one that is not stopped");
        for next in 0..=last + 2 {
            let position = Position { set, next };
            for count in (0..=last + 2).chain([u32::MAX - 1, u32::MAX]) {
                let went = position.go(count);
                assert_eq!(went, position.go_each_length(count), "{next} {count}");
                assert_eq!(went.is_err(), next == 0 || next > last);
                match went {
                    Ok(Went::On { tested, next: on }) => {
                        assert_eq!((tested, on), (count, next + count));
                    }
                    Ok(Went::Ended { tested, .. }) => assert!((1..=count).contains(&tested)),
                    Err(_) => {}
                }
            }
        }
    }
}

/// The counts and the verdict of calls from an opening, with numbers that are repeated.
fn divided(set: &Set, numbers: &[u32]) -> (u32, Verdict) {
    let mut position = open(set).expect("one that is not stopped");
    let mut sum = 0;
    for &number in numbers.iter().cycle() {
        match position.go(number).expect("a length that is named") {
            Went::On { tested, next } => {
                sum += tested;
                assert_eq!(next, 1 + sum);
                position.next = next;
            }
            Went::Ended { tested, verdict } => return (sum + tested, verdict),
        }
    }
    unreachable!("the numbers go on for ever");
}

#[test]
fn however_the_work_is_divided() {
    for set in sets() {
        let expected = verdict_each_length(&set);
        let lengths = match expected {
            Verdict::Late { length, .. } => length as u32,
            _ => last_length(&set).expect("one that is not stopped"),
        };
        for numbers in [
            &[u32::MAX][..],
            &[1],
            &[0, 1],
            &[0, 0, 3],
            &[7, 0, 1, 2],
            &[lengths],
            &[lengths - 1, 1],
            &[lengths + 1],
            &[2, 1_000_000],
        ] {
            assert_eq!(divided(&set, numbers), (lengths, expected), "{numbers:?}");
        }
    }
}

#[test]
fn the_position_in_the_console() {
    // W3, late 5 7. With a verdict, or refused, the position stays; opening a set that is stopped
    // leaves it too; the set of the console may change.
    let script = "\
read 11000010000a000050000000018001400005000000
open
go 4
read 1000
go 1
open
go 0
go 2
read 20
open
resume 9
go 1
streams 1
open
go 1";
    let expected = "\
set 2
open
tested 4 next 5
set 0
tested 1 late 5 7
open
tested 0 next 1
tested 1 accept
refused 5
open
put
refused 12
put
refused 7
refused 12
";
    assert_eq!(said(script), expected);
    for line in [
        "open 1",
        "go",
        "go ",
        "go 1 1",
        "go 4294967296",
        "resume",
        "resume 1 1",
    ] {
        assert_eq!(said(line), "?\n", "{line}");
    }
}

#[test]
fn the_parts_of_a_demand_make_it_up() {
    for set in sets() {
        for length in 0..100 {
            let sum: u64 = parts(&set, u64::from(length))
                .iter()
                .map(|part| part.amount())
                .sum();
            assert_eq!(Ok(sum), demand(&set, length));
        }
    }
}

#[test]
fn what_the_program_prints() {
    let printed = |set: &Set| check::run(&pack(&fields(set)), RENDERED);
    let late = "late 5 7\nstream 0 cost 2 times 1\ntask 0 blocked by 5\n";
    assert_eq!(printed(&set_w3(0, 6)), late);
    let both = Set::of(&[stream(4, 3, 3, &[once(0)]), stream(1, 3, 3, &[once(0)])]);
    let late = "late 3 6\nstream 0 cost 3 times 1\nstream 1 cost 3 times 1\n";
    assert_eq!(printed(&both), late);
    assert_eq!(printed(&set_b()), "accept\n");
    assert_eq!(printed(&overloaded()), "overload\n");
    assert_eq!(printed(&long_cycle()), "refused 8\n");
    for (sheet, output) in [
        (&[][..], "refused 5\n"),
        (&[0x30], "refused 6\n"),
        (&[0x18, 0x80], "refused 7\n"),
        (&[0x10, 0x01], "refused 10\n"),
        (&[0x20, 0x00], "accept\n"),
    ] {
        assert_eq!(check::run(sheet, RENDERED), output);
    }
    // Two stages on the task that is urgent, of one stream that is not; tasks in order.
    let set = Set::of_version(
        2,
        &[
            staged(&[(9, 1), (2, 1)], 4, &[every(40, 0)]),
            staged(&[(2, 3), (9, 2), (2, 2)], 40, &[every(40, 0)]),
        ],
    );
    let late = "late 4 5\nstream 0 cost 2 times 1\ntask 2 blocked by 2\ntask 9 blocked by 1\n";
    assert_eq!(printed(&set), late);
}
