//! The door of request 6.

mod common;

use common::{every, once, said_from, said_with, stream, SHEET_W12};
use second::door::Door;
use second::refusal::Refusal;
use second::requests::{DOOR, PIECES, RENDERED};
use second::set::{Set, Stream, Tuple};
use second::sheet::{fields, pack};
use second::state::{Answer, State, LAST_CLOCK, MESSAGE_PLACES};
use second::{replay, trace};

fn said(script: &str) -> String {
    said_from(DOOR, script)
}

fn with(tuples: &[Tuple]) -> Stream {
    stream(0, 2, 5, tuples)
}

fn started(streams: &[Stream]) -> State {
    let (state, result) = State::start(&Set::of(streams), RENDERED);
    assert_eq!(result, Ok(()));
    state
}

fn refused(refusal: Refusal) -> Answer {
    Answer::Refused(refusal)
}

/// The true times up to a last one at which a stream takes posts that come as often as possible.
fn taken(tuples: &[Tuple], last: u32) -> Vec<u32> {
    let mut state = started(&[with(tuples)]);
    let mut times = Vec::new();
    for time in 0..=last {
        while let Answer::Posted { .. } = state.post(0) {
            times.push(time);
        }
        assert_eq!(state.post(0), refused(Refusal::AtTheDoor));
        while state.pending > 1 {
            state.messages[state.pending as usize - 1] = second::state::Message::UNUSED;
            state.pending -= 1;
        }
        state.unit(false);
    }
    times
}

#[test]
fn which_streams_have_a_door() {
    let cycle = |cycle, offset| Some(Door::Cycle { cycle, offset });
    for (tuples, door) in [
        (&[once(0)][..], Some(Door::Once)),
        (&[every(7, 0)], cycle(7, 7)),
        (&[once(0), every(7, 0)], cycle(7, 0)),
        (&[once(0), every(7, 3)], cycle(7, 3)),
        (&[once(0), every(7, 9)], cycle(7, 9)),
        (&[once(0), once(0)], None),
        (&[once(0), once(9)], None),
        (&[every(7, 0), every(7, 0)], None),
        (&[every(7, 0), once(3)], None),
        (&[every(7, 0), once(0)], None),
        (&[once(0), every(7, 3), once(3)], None),
        (&[once(0), every(7, 3), every(7, 3)], None),
        (&[once(0), once(0), every(7, 3)], None),
        (&[once(0), every(7, 3), once(3), once(3)], None),
    ] {
        assert_eq!(with(tuples).door(), door, "{tuples:?}");
    }
}

#[test]
fn the_times_at_which_each_kind_takes_posts() {
    assert_eq!(taken(&[once(0)], 40), [0]);
    assert_eq!(taken(&[every(10, 0)], 40), [0, 10, 20, 30, 40]);
    assert_eq!(taken(&[every(1, 0)], 4), [0, 1, 2, 3, 4]);
    assert_eq!(taken(&[once(0), every(6, 2)], 20), [0, 2, 8, 14, 20]);
    assert_eq!(taken(&[once(0), every(6, 6)], 20), [0, 6, 12, 18]);
    assert_eq!(taken(&[once(0), every(6, 0)], 13), [0, 0, 6, 12]);
    // The offset above the cycle: from the last post on.
    assert_eq!(taken(&[once(0), every(3, 5)], 20), [0, 5, 10, 15, 20]);
}

#[test]
fn for_other_streams_nothing_changes() {
    for tuples in [
        &[once(0), once(9)][..],
        &[every(9, 0), every(9, 0)],
        &[every(9, 0), once(3)],
        &[once(0), every(9, 3), once(3)],
    ] {
        let mut state = started(&[with(tuples)]);
        for _ in 0..MESSAGE_PLACES {
            assert!(matches!(state.post(0), Answer::Posted { .. }));
        }
        assert_eq!(state.post(0), refused(Refusal::Full));
        assert_eq!(state.waits, [0; 16]);
    }
}

#[test]
fn the_order_of_the_refusals_of_post() {
    // "12, 1, 15, 2"
    let other = with(&[once(0), once(0)]);
    let mut state = started(&[with(&[every(10, 0)]), other]);
    assert!(matches!(state.post(0), Answer::Posted { .. }));
    assert_eq!(state.post(2), refused(Refusal::NoSuchStream));
    for _ in 1..MESSAGE_PLACES {
        assert!(matches!(state.post(1), Answer::Posted { .. }));
    }
    assert_eq!(state.post(2), refused(Refusal::NoSuchStream));
    assert_eq!(state.post(0), refused(Refusal::AtTheDoor));
    assert_eq!(state.post(1), refused(Refusal::Full));
    for _ in 0..9 {
        assert_eq!(state.unit(false), Answer::Ran { task: 0, stream: 0 });
        state.messages[0].used = 0;
    }
    assert_eq!((state.waits[0], state.clock), (1, 9));
    assert_eq!(state.post(0), refused(Refusal::AtTheDoor));
    assert!(matches!(state.unit(false), Answer::Ran { .. }));
    // "A post that is refused by 2 adds nothing to the wait."
    assert_eq!(state.post(0), refused(Refusal::Full));
    assert_eq!(state.post(0), refused(Refusal::Full));
    assert_eq!(state.waits[0], 0);
    state.put_wait(1, 1);
    for stream in 0..3 {
        assert_eq!(state.post(stream), refused(Refusal::NotWellFormed));
    }
}

#[test]
fn a_wait_falls_only_with_the_clock() {
    let mut state = started(&[with(&[every(10, 0)])]);
    state.post(0);
    state.unit(true);
    assert_eq!(state.waits[0], 9);
    assert_eq!(state.unit(true), refused(Refusal::NothingPending));
    assert_eq!(state.waits[0], 9);
    state.clock = LAST_CLOCK;
    assert_eq!(state.unit(false), refused(Refusal::LastClock));
    assert_eq!(state.waits[0], 9);
    // The clock that is put by hand is no unit.
    assert_eq!(state.post(0), refused(Refusal::AtTheDoor));
}

#[test]
fn the_rules_of_waits() {
    for (tuples, greatest) in [
        (&[once(0)][..], 1),
        (&[every(10, 0)], 10),
        (&[once(0), every(6, 2)], 4 + 6),
        (&[once(0), every(6, 0)], 6 + 6),
        (&[once(0), every(6, 6)], 6),
        (&[once(0), every(3, 5)], 5),
        (&[once(0), every(1_000_000, 0)], 2_000_000),
        (&[once(0), once(0)], 0),
        (&[every(10, 0), once(0)], 0),
    ] {
        let mut state = started(&[with(tuples)]);
        for wait in [0, greatest, greatest + 1, u32::MAX] {
            state.put_wait(0, wait);
            assert_eq!(state.well_formed(), wait <= greatest, "{tuples:?} {wait}");
        }
        state.put_wait(0, 0);
        for place in 1..16 {
            state.put_wait(place, 1);
            assert!(!state.well_formed(), "{place}");
            state.put_wait(place, 0);
        }
        assert!(state.well_formed());
    }
}

#[test]
fn a_wait_put_by_hand_decides() {
    let script = "read 10980010000a0000500000\nstart\n";
    for (wait, answers) in [
        (0, "0 posted 0 5\n0 refused 15\n0 ran 3 0\n"),
        (1, "0 refused 15\n0 refused 15\n0 idle\n"),
        (10, "0 refused 15\n0 refused 15\n0 idle\n"),
        (11, "0 refused 12\n0 refused 12\n0 refused 12\n"),
    ] {
        let said = said(&format!("{script}door 0 {wait}\npost 0\npost 0\nunit"));
        assert_eq!(said, format!("set 1\nstarted\nput\n{answers}"));
    }
    // A new start has no waits.
    let said = said(&format!("{script}door 0 11\nstart\npost 0"));
    assert_eq!(said, "set 1\nstarted\nput\nstarted\n0 posted 0 5\n");
}

#[test]
fn waits_in_the_console() {
    let script = "door 15 7\ndoor 0 4294967295\nstate\ndoor 16 0\ndoor 0\ndoor 0 0 0";
    let expected = "put\nput\nclock 0\npending 0\ndoor 0 4294967295\ndoor 15 7\n?\n?\n?\n";
    assert_eq!(said(script), expected);
    let refused_start = "door 0 1\nstreams 1\nstart\nstate";
    assert_eq!(
        said(refused_start),
        "put\nput\nrefused 7\nclock 0\npending 0\n"
    );
}

#[test]
fn traces_and_replays_meet_the_door() {
    let steps = b"p0p0uduuuuuuuup0up0";
    let expected = "accept
0 posted 0 5
0 refused 15
0 ran 3 0
1 done 3 0 3
2 idle
3 idle
4 idle
5 idle
6 idle
7 idle
8 idle
9 idle
10 posted 0 15
10 ran 3 0
11 refused 15
";
    assert_eq!(trace::run(&SHEET_W12, steps, DOOR).output, expected);
    let before = trace::run(&SHEET_W12, steps, PIECES).output;
    assert!(before.contains("0 posted 0 5\n0 posted 0 5\n"));
    let calls = trace::steps(steps).expect("a good trace");
    let recording = second::recording::recording_of(&calls);
    let replayed = replay::run(&SHEET_W12, &recording, DOOR).output;
    assert_eq!(replayed, format!("{expected}end\n"));
}

#[test]
fn a_door_that_is_shut_for_a_million_units() {
    let set = Set::of(&[
        with(&[every(1_000_000, 0)]),
        with(&[once(0), every(1_000_000, 100_000)]),
        with(&[once(0)]),
    ]);
    let (mut state, _) = State::start(&set, DOOR);
    let taken = [0, 100_000, 1_000_000, 1_100_000, 2_000_000, 2_100_000];
    for time in 0..=2_100_000_u32 {
        let at_one = taken.iter().any(|&at| time.abs_diff(at) <= 1);
        if at_one {
            let posted =
                [0, 1, 2].map(|stream| matches!(state.post(stream), Answer::Posted { .. }));
            let first = time % 1_000_000 == 0;
            let second = time == 0 || time % 1_000_000 == 100_000;
            assert_eq!(posted, [first, second, time == 0], "{time}");
        }
        state.unit(state.pending > 0);
    }
}

#[test]
fn before_the_request_nothing_is_early() {
    let sheet = pack(&fields(&Set::of(&[with(&[once(0)])])));
    for requests in 0..=PIECES {
        let output = trace::run(&sheet, b"p0p0up0", requests).output;
        assert!(!output.contains("refused"), "{requests}");
    }
    let script = "read 10980010000a0000500000\nstart\npost 0\npost 0\nstate";
    assert!(!said_with(PIECES, script).contains("door"));
}
