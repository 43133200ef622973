//! The two parties of request 8.

mod common;

use common::{every, once, said_from, said_with, set_b, set_of_stages, staged, stream, SHEET_W12};
use second::parties::{Owners, Parties, Party, Places};
use second::recording::recording_of;
use second::refusal::Refusal;
use second::replay::{self, Reader, Replayed};
use second::requests::{PARTIES, RENDERED, RESUMABLE};
use second::set::{Set, Stream};
use second::sheet::{fields, pack, VERSION_2};
use second::state::{Answer, Message, State};
use second::trace::{self, Step};
use second::view::{answers_by_view, Seen, WholeRun};

use Party::{Ours, Theirs};

fn said(script: &str) -> String {
    said_from(PARTIES, script)
}

fn refused(refusal: Refusal) -> Answer {
    Answer::Refused(refusal)
}

/// Two numbers of places, and the streams that are theirs.
fn parties(ours: u32, theirs: u32, streams_of_theirs: &[usize]) -> Parties {
    let mut owners = Parties::US_ALONE.owners;
    for &stream in streams_of_theirs {
        owners[stream] = Theirs;
    }
    let places = Places { ours, theirs };
    Parties { owners, places }
}

/// A stream that can be posted as one likes.
fn without_door(task: u32, cost: u32, deadline: u32) -> Stream {
    stream(task, cost, deadline, &[once(0), once(0)])
}

/// Stream 0 is ours, streams 1 and 2 are theirs; the last has a door.
fn three_streams() -> Set {
    Set::of(&[
        without_door(0, 2, 10),
        without_door(1, 3, 20),
        stream(2, 1, 30, &[every(5, 0)]),
    ])
}

fn started(set: &Set, parties: &Parties) -> State {
    let (state, result) = State::start_shared(set, parties, PARTIES);
    assert_eq!(result, Ok(()));
    state
}

fn is_posted(answer: Answer) -> bool {
    matches!(answer, Answer::Posted { .. })
}

#[test]
fn the_old_start_is_all_ours_with_64_places() {
    for requests in [RESUMABLE, PARTIES] {
        let (state, result) = State::start(&set_b(), requests);
        assert_eq!(result, Ok(()));
        assert_eq!(state.parties.owners, [Ours; 16]);
        let (ours, theirs) = (64, 0);
        assert_eq!(state.parties.places, Places { ours, theirs });
        assert_eq!(State::empty(requests).parties, Parties::US_ALONE);
    }
}

#[test]
fn a_start_with_too_many_places_is_refused_after_7() {
    let empty = State::empty(PARTIES);
    let mut invalid = set_b();
    invalid.count = 17;
    for (ours, theirs, in_rule) in [
        (0, 0, true),
        (64, 0, true),
        (0, 64, true),
        (32, 32, true),
        (1, 63, true),
        (65, 0, false),
        (0, 65, false),
        (32, 33, false),
        (64, 64, false),
        // Sums that 32 bits cannot hold.
        (u32::MAX, 1, false),
        (1, u32::MAX, false),
        (u32::MAX, u32::MAX, false),
        (1 << 31, 1 << 31, false),
        (u32::MAX - 9, 42, false),
    ] {
        let parties = parties(ours, theirs, &[1]);
        let too_many = Err(Refusal::TooManyPlaces);
        let (state, result) = State::start_shared(&set_b(), &parties, PARTIES);
        assert_eq!(result, if in_rule { Ok(()) } else { too_many });
        if in_rule {
            assert_eq!(state.parties, parties);
        } else {
            assert_eq!(state, empty);
        }
        let (state, result) = State::start_shared(&invalid, &parties, PARTIES);
        assert_eq!((state, result), (empty.clone(), Err(Refusal::OutOfRule)));
    }
}

#[test]
fn streams_that_the_set_does_not_have_are_ours() {
    let all: Owners = [Theirs; 16];
    let given = Parties {
        owners: all,
        ..Parties::US_ALONE
    };
    for (set, count) in [(Set::EMPTY, 0), (set_b(), 3), (common::full_set(), 16)] {
        let state = started(&set, &given);
        assert_eq!(state.parties.owners[..count], all[..count]);
        assert!(state.parties.owners[count..].iter().all(|&o| o == Ours));
        assert!(state.well_formed());
    }
}

#[test]
fn a_post_is_full_exactly_when_its_own_party_has_its_number_pending() {
    for ours in 0..4 {
        for theirs in 0..4 {
            let mut state = started(&three_streams(), &parties(ours, theirs, &[1, 2]));
            for (stream, places) in [(0, ours), (1, theirs), (0, ours)] {
                let party = state.parties.owners[stream as usize];
                while state.pending_of(party) < places {
                    assert!(is_posted(state.post(stream)));
                }
                let before = state.clone();
                assert_eq!(state.post(stream), refused(Refusal::Full));
                assert_eq!(state, before);
            }
            assert_eq!(state.pending, ours + theirs);
            assert!(state.well_formed());
        }
    }
}

#[test]
fn both_parties_fill_the_table() {
    for ours in [0, 1, 31, 63, 64] {
        let mut state = started(&three_streams(), &parties(ours, 64 - ours, &[1]));
        for _ in 0..ours {
            assert!(is_posted(state.post(0)));
        }
        for _ in ours..64 {
            assert!(is_posted(state.post(1)));
        }
        assert_eq!(state.pending, 64);
        assert_eq!(state.post(0), refused(Refusal::Full));
        assert_eq!(state.post(1), refused(Refusal::Full));
    }
}

#[test]
fn a_place_that_is_freed_is_the_partys_own() {
    let mut state = started(&three_streams(), &parties(1, 2, &[1, 2]));
    for (stream, posts) in [(0, 1), (1, 2)] {
        for _ in 0..posts {
            assert!(is_posted(state.post(stream)));
        }
    }
    // Ours leaves as finished.
    assert!(matches!(
        state.unit(true),
        Answer::Finished { stream: 0, .. }
    ));
    assert_eq!(state.post(1), refused(Refusal::Full));
    assert!(is_posted(state.post(0)));
    assert_eq!(state.post(0), refused(Refusal::Full));
    // Ours leaves as cut, then one of theirs.
    state.unit(false);
    assert!(matches!(state.unit(false), Answer::Cut { stream: 0, .. }));
    assert_eq!(state.post(2), refused(Refusal::Full));
    assert!(matches!(
        state.unit(true),
        Answer::Finished { stream: 1, .. }
    ));
    assert!(is_posted(state.post(2)));
    assert_eq!(state.post(1), refused(Refusal::Full));
    assert!(is_posted(state.post(0)));
}

#[test]
fn a_message_that_passes_keeps_its_place() {
    let set = Set::of_version(
        VERSION_2,
        &[
            staged(&[(1, 2), (4, 3)], 12, &[once(0), once(0)]),
            staged(&[(4, 2)], 30, &[once(0), once(0)]),
        ],
    );
    let mut state = started(&set, &parties(1, 1, &[1]));
    assert!(is_posted(state.post(0)));
    assert_eq!(state.unit(true), Answer::Passed { task: 1, stream: 0 });
    assert_eq!(state.post(0), refused(Refusal::Full));
    assert!(is_posted(state.post(1)));
    assert!(matches!(
        state.unit(true),
        Answer::Finished { stream: 0, .. }
    ));
    assert!(is_posted(state.post(0)));
}

#[test]
fn the_order_of_the_refusals_of_post() {
    // "Order 12, 1, 15, 2."
    let mut state = started(&three_streams(), &parties(0, 1, &[1, 2]));
    assert_eq!(state.post(3), refused(Refusal::NoSuchStream));
    assert_eq!(state.post(0), refused(Refusal::Full));
    assert!(is_posted(state.post(2)));
    assert_eq!(state.post(2), refused(Refusal::AtTheDoor));
    assert_eq!(state.post(1), refused(Refusal::Full));
    assert_eq!(state.post(3), refused(Refusal::NoSuchStream));
    assert!(matches!(state.unit(false), Answer::Cut { stream: 2, .. }));
    assert!(is_posted(state.post(1)));
    for wait in (1..=3).rev() {
        assert_eq!(state.post(2), refused(Refusal::AtTheDoor));
        state.messages[0].used = 0;
        state.unit(false);
        assert_eq!(state.waits[2], wait);
    }
    state.messages[0].used = 0;
    state.unit(false);
    // "A post that is refused by 2 adds nothing to the wait."
    assert_eq!(state.post(2), refused(Refusal::Full));
    assert_eq!(state.post(2), refused(Refusal::Full));
    assert_eq!(state.waits[2], 0);
    state.parties.owners[3] = Theirs;
    for stream in 0..4 {
        assert_eq!(state.post(stream), refused(Refusal::NotWellFormed));
    }
}

/// One message of ours and two of theirs, which have two places and three.
fn state_in_hand() -> State {
    let mut state = started(&three_streams(), &parties(2, 3, &[1, 2]));
    for stream in [1, 0, 2] {
        assert!(is_posted(state.post(stream)));
    }
    state
}

fn put_places(state: &mut State, ours: u32, theirs: u32) {
    state.parties.places = Places { ours, theirs };
}

#[test]
fn states_out_of_rule_are_refused_by_every_call() {
    let faults: &[fn(&mut State)] = &[
        // "places together at most 64"
        |state| put_places(state, 2, 63),
        |state| put_places(state, 65, 2),
        |state| put_places(state, 62, 3),
        |state| put_places(state, u32::MAX, 3),
        |state| put_places(state, u32::MAX, u32::MAX),
        |state| put_places(state, u32::MAX - 1, 2),
        // "unused streams ours"
        |state| state.parties.owners[3] = Theirs,
        |state| state.parties.owners[15] = Theirs,
        // "a party has at most its places pending"
        |state| put_places(state, 0, 3),
        |state| put_places(state, 2, 1),
        |state| put_places(state, 64, 0),
        |state| state.parties.owners = [Ours; 16],
        |state| {
            put_places(state, 1, 3);
            state.parties.owners[1] = Ours;
        },
    ];
    for (number, fault) in faults.iter().enumerate() {
        let mut state = state_in_hand();
        fault(&mut state);
        let before = state.clone();
        let not_formed = refused(Refusal::NotWellFormed);
        assert!(!state.well_formed(), "fault {number}");
        assert_eq!(state.choose(), Err(Refusal::NotWellFormed));
        for stream in [0, 1, 2, 3, 99] {
            assert_eq!(state.post(stream), not_formed);
        }
        assert_eq!(state.unit(false), not_formed);
        assert_eq!(state.unit(true), not_formed);
        let step = Reader::new(&[0x40]).next(&mut state);
        assert_eq!(step, Replayed::Refused(Refusal::NotWellFormed));
        assert_eq!(state, before, "fault {number}");
    }
}

#[test]
fn states_at_the_edge_of_the_rules_are_well_formed() {
    let edges: &[fn(&mut State)] = &[
        |state| put_places(state, 1, 2),
        |state| put_places(state, 62, 2),
        |state| put_places(state, 1, 63),
        |state| state.parties.owners[1] = Ours,
        |state| state.parties.owners[0] = Theirs,
        |state| {
            put_places(state, 3, 0);
            state.parties.owners = [Ours; 16];
        },
        |state| {
            put_places(state, 0, 3);
            state.parties.owners[0] = Theirs;
        },
        |state| {
            put_places(state, 0, 0);
            state.messages = [Message::UNUSED; 64];
            state.pending = 0;
        },
    ];
    for (number, edge) in edges.iter().enumerate() {
        let mut state = state_in_hand();
        edge(&mut state);
        assert!(state.well_formed(), "edge {number}");
    }
}

#[test]
fn states_of_other_parties_are_other_states() {
    let state = state_in_hand();
    let mut other = state.clone();
    other.parties.owners[1] = Ours;
    assert_ne!(state, other);
    let mut other = state.clone();
    put_places(&mut other, 3, 2);
    assert_ne!(state, other);
}

/// Puts the three streams, of which the last two are theirs.
const THREE_STREAMS: &str = "\
streams 3
stream 0 0 2 10 2
stream 1 1 3 20 2
stream 2 2 1 30 1
every 2 0 5 0
owner 1 1
owner 2 1
";

#[test]
fn two_parties_in_the_console() {
    let script = "\
places 2 1
start
post 0
post 0
post 0
post 1
post 1
post 2
post 3
state
unit
unit
post 1
post 0
done
unit
unit
done
post 2
post 2
post 1
state
formed";
    let expected = "\
put
started
0 posted 0 10
0 posted 0 10
0 refused 2
0 posted 1 20
0 refused 2
0 refused 2
0 refused 1
clock 0
pending 3
message 0 0 10 0
message 1 0 10 0
message 2 1 20 0
owns 1 1
owns 2 1
room 2 1
0 ran 0 0
1 cut 0 0 8
2 refused 2
2 posted 0 12
2 done 0 0 7
3 ran 0 0
4 cut 0 0 7
5 done 1 1 14
6 posted 2 36
6 refused 15
6 refused 2
clock 6
pending 1
message 0 2 36 0
door 2 5
owns 1 1
owns 2 1
room 2 1
well formed
";
    let said = said(&format!("{THREE_STREAMS}{script}"));
    assert_eq!(said, format!("{}{expected}", "put\n".repeat(7)));
}

#[test]
fn starts_in_the_console() {
    let script = "\
places 65 0
start
state
places 4294967295 1
start
state
streams 17
start
streams 3
places 32 32
start
state
places 64 0
state
start
state
places 0 0
start
post 0
state";
    let expected = "\
put
refused 16
clock 0
pending 0
put
refused 16
clock 0
pending 0
put
refused 7
put
put
started
clock 0
pending 0
owns 1 1
owns 2 1
room 32 32
put
clock 0
pending 0
owns 1 1
owns 2 1
room 32 32
started
clock 0
pending 0
owns 1 1
owns 2 1
put
started
0 refused 2
clock 0
pending 0
owns 1 1
owns 2 1
room 0 0
";
    let said = said(&format!("{THREE_STREAMS}{script}"));
    assert_eq!(said, format!("{}{expected}", "put\n".repeat(7)));
}

#[test]
fn owners_and_places_stay_for_later_starts() {
    // Stream 1 is theirs in every set that has it, whatever is read, refused or started between.
    let script = "\
owner 1 1
owner 15 1
places 1 1
read 10980010000a0000500000
start
state
read 30
start
read 110000080002000008000040004000100000400000
start
state
owner 1 0
start
state";
    let expected = "\
put
put
put
set 1
started
clock 0
pending 0
room 1 1
refused 6
started
set 2
started
clock 0
pending 0
owns 1 1
room 1 1
put
started
clock 0
pending 0
room 1 1
";
    assert_eq!(said(script), expected);
}

#[test]
fn owners_and_places_by_hand() {
    let script = "\
places 1 2
start
post 0
post 1
owns 1 0
formed
post 0
room 2 0
formed
post 1
owns 1 1
unit
room 1 1
unit
owns 15 1
state
choose
owns 15 0
room 32 33
next
room 32 32
formed
room 64 0
state";
    let expected = "\
put
started
0 posted 0 10
0 posted 1 20
put
refused 12
0 refused 12
put
well formed
0 refused 2
put
0 refused 12
put
0 ran 0 0
put
clock 1
pending 2
message 0 0 10 1
message 1 1 20 0
owns 1 1
owns 2 1
owns 15 1
room 1 1
refused 12
put
put
refused 12
put
well formed
put
clock 1
pending 2
message 0 0 10 1
message 1 1 20 0
owns 1 1
owns 2 1
";
    let said = said(&format!("{THREE_STREAMS}{script}"));
    assert_eq!(said, format!("{}{expected}", "put\n".repeat(7)));
}

#[test]
fn parties_and_indexes_in_the_console() {
    for line in [
        "owner 0 0",
        "owner 15 1",
        "owns 0 1",
        "owns 15 0",
        "places 0 0",
        "places 4294967295 4294967295",
        "room 64 0",
        "room 4294967295 4294967295",
    ] {
        assert_eq!(said(line), "put\n", "{line}");
    }
    for line in [
        "owner 16 0",
        "owner 0 2",
        "owner 0 4294967295",
        "owner 0",
        "owner 0 1 1",
        "owns 16 0",
        "owns 4294967295 0",
        "owns 0 2",
        "owns 0",
        "places 1",
        "places 1 1 1",
        "places 4294967296 0",
        "room",
        "room 1",
        "room 1 1 1",
        "room 1 -1",
    ] {
        let script = format!("{THREE_STREAMS}places 1 1\n{line}\nstart\nstate");
        let expected = "put\n?\nstarted\nclock 0\npending 0\nowns 1 1\nowns 2 1\nroom 1 1\n";
        let expected = format!("{}{expected}", "put\n".repeat(7));
        assert_eq!(said(&script), expected, "{line}");
    }
}

#[test]
fn before_the_request_there_is_one_party() {
    for requests in 0..PARTIES {
        let given = parties(1, 64, &[0, 1, 2]);
        let (state, result) = State::start_shared(&set_b(), &given, requests);
        assert_eq!((state, result), State::start(&set_b(), requests));
        let script = "owner 0 1\nplaces 0 0\nowns 0 1\nroom 0 0\nstart\nstate";
        let expected = "?\n?\n?\n?\nstarted\nclock 0\npending 0\n";
        assert_eq!(said_with(requests, script), expected);
    }
}

#[test]
fn the_trace_program_gives_us_all() {
    let full = format!("{}udp0", "p0".repeat(66));
    let sheet = pack(&fields(&three_streams()));
    for steps in [full.as_str(), "p0p1p2p3upfddd"] {
        let before = trace::run(&sheet, steps.as_bytes(), RESUMABLE);
        assert_eq!(trace::run(&sheet, steps.as_bytes(), RENDERED), before);
        let recording = recording_of(&trace::steps(steps.as_bytes()).expect("a good trace"));
        let before = replay::run(&sheet, &recording, RESUMABLE);
        assert_eq!(replay::run(&sheet, &recording, RENDERED), before);
    }
}

#[test]
fn the_start_of_a_replay() {
    let given = parties(60, 4, &[0, 7]);
    let (state, result) = replay::start(&SHEET_W12, &given, PARTIES);
    assert_eq!(result, Ok(()));
    assert_eq!(state.parties, parties(60, 4, &[0]));
    let too_many = parties(60, 5, &[0]);
    for (sheet, parties, refusal) in [
        (&[][..], &given, Refusal::BitsMissing),
        (&[0x30, 0x00], &given, Refusal::BadVersion),
        (&[0x18, 0x80], &given, Refusal::OutOfRule),
        (&[0x10, 0x01], &given, Refusal::AfterLastField),
        (&[0x10, 0x01], &too_many, Refusal::AfterLastField),
        (&[0x18, 0x80], &too_many, Refusal::OutOfRule),
        (&SHEET_W12, &too_many, Refusal::TooManyPlaces),
        (&[0x10, 0x00], &too_many, Refusal::TooManyPlaces),
    ] {
        let start = replay::start(sheet, parties, PARTIES);
        assert_eq!(start, (State::empty(PARTIES), Err(refusal)));
    }
}

#[test]
fn a_replay_with_the_same_owners_and_places() {
    let given = parties(1, 2, &[1, 2]);
    let steps = trace::steps(b"p0p0p1p2p1up0dp2p0uuup1d").expect("a good trace");
    let mut run = WholeRun::start(&three_streams(), &given, PARTIES).expect("a start");
    for &step in &steps {
        run.call(step);
    }
    let answered = |refusal| run.calls.iter().any(|made| made.answer == refused(refusal));
    assert!(answered(Refusal::Full) && answered(Refusal::AtTheDoor));
    let sheet = pack(&fields(&three_streams()));
    let recording = recording_of(&steps);
    let (mut state, _) = replay::start(&sheet, &given, PARTIES);
    let mut reader = Reader::new(&recording);
    for made in &run.calls {
        assert_eq!(reader.next(&mut state), Replayed::Called(made.answer));
    }
    assert_eq!(reader.next(&mut state), Replayed::End);
    assert_eq!(state, run.state);
    // With other places it is another run.
    let (mut state, _) = replay::start(&sheet, &Parties::US_ALONE, PARTIES);
    let mut reader = Reader::new(&recording);
    let differs =
        |made: &second::view::Made| reader.next(&mut state) != Replayed::Called(made.answer);
    assert!(run.calls.iter().any(differs));
}

/// The run of a trace with the three streams.
fn run_of(given: &Parties, steps: &[u8]) -> WholeRun {
    let mut run = WholeRun::start(&three_streams(), given, PARTIES).expect("a start");
    for step in trace::steps(steps).expect("a good trace") {
        run.call(step);
    }
    run
}

#[test]
fn what_a_party_sees() {
    let post = |stream, clock| Seen::Post { stream, clock };
    // The post to stream 3 is nobody's, and a post that is refused is seen as any other.
    let run = run_of(&parties(1, 2, &[1, 2]), b"p0p0p3p1up2dp0uuuud");
    let view = [
        post(0, 0),
        post(0, 0),
        Seen::Leaving,
        post(0, 2),
        Seen::Leaving,
    ];
    assert_eq!(run.view(Ours), view);
    let view = [post(1, 0), post(2, 1), Seen::Leaving, Seen::Leaving];
    assert_eq!(run.view(Theirs), view[..3]);
    let posted = |stream, deadline| Answer::Posted { stream, deadline };
    let full = refused(Refusal::Full);
    assert_eq!(run.answers(Ours), [posted(0, 10), full, posted(0, 12)]);
    assert_eq!(run.answers(Theirs), [posted(1, 20), posted(2, 31)]);
    assert_eq!(run.post_against_view(Ours), None);
    assert_eq!(run.post_against_view(Theirs), None);
}

#[test]
fn two_runs_that_look_the_same_to_a_party() {
    let given = parties(2, 1, &[1, 2]);
    // Ours posts at 0, 0 and 0 and, when both messages have left, at 4 and 4.
    let first = run_of(&given, b"p0p0p0duuup0p0");
    for other in [
        &b"p1p0p0p1p0duuup0p0"[..],
        b"p2p2p2p0p0p0duuup0p2p0p1",
        // They leave at other clocks.
        b"p0p1p0p0uuddp0p1p0",
    ] {
        let second = run_of(&given, other);
        assert_eq!(second.view(Ours), first.view(Ours));
        assert_ne!(second.view(Theirs), first.view(Theirs));
        assert_eq!(second.answers(Ours), first.answers(Ours));
        assert_eq!(second.post_against_view(Theirs), None);
    }
    let full = first.answers(Ours).into_iter();
    let full = full.filter(|answer| *answer == refused(Refusal::Full));
    assert_eq!(full.count(), 1);
}

#[test]
fn the_answers_of_a_view_alone() {
    let post = |stream, clock| Seen::Post { stream, clock };
    let posted = |stream, deadline| Answer::Posted { stream, deadline };
    let set = three_streams();
    let view = [
        post(0, 0),
        post(2, 0),
        post(2, 0),
        post(0, 3),
        Seen::Leaving,
        post(2, 4),
        post(0, 4),
        Seen::Leaving,
        post(2, 5),
    ];
    let at_door = refused(Refusal::AtTheDoor);
    let expected = [
        posted(0, 10),
        posted(2, 30),
        at_door,
        refused(Refusal::Full),
        at_door,
        posted(0, 14),
        posted(2, 35),
    ];
    assert_eq!(answers_by_view(&set, 2, &view), expected);
    let none = answers_by_view(&set, 0, &view[..1]);
    assert_eq!(none, [refused(Refusal::Full)]);
}

#[test]
fn an_answer_that_the_view_does_not_give_is_found() {
    let given = parties(2, 1, &[1, 2]);
    let good = run_of(&given, b"p0p0p0p1p1");
    assert_eq!(good.post_against_view(Ours), None);
    // A place of theirs that was taken by ours, and a post that was let through too early.
    let mut bad = good.clone();
    bad.parties.places = Places { ours: 3, theirs: 0 };
    assert_eq!(bad.post_against_view(Ours), Some(2));
    assert_eq!(bad.post_against_view(Theirs), Some(0));
    let mut early = run_of(&given, b"p2p2");
    let deadline = 30;
    early.calls[1].answer = Answer::Posted {
        stream: 2,
        deadline,
    };
    assert_eq!(early.post_against_view(Theirs), Some(1));
    // Another deadline than clock + d.
    early.calls[0].answer = Answer::Posted {
        stream: 2,
        deadline: 31,
    };
    assert_eq!(early.post_against_view(Theirs), Some(0));
}

#[test]
fn stages_of_both_parties() {
    let mut run =
        WholeRun::start(&set_of_stages(), &parties(1, 1, &[1]), PARTIES).expect("a start");
    for step in trace::steps(b"p1p0udp1p0uuduup0").expect("a good trace") {
        run.call(step);
    }
    // The message of ours passes on before it leaves: that is no leaving.
    let passed = |made: &second::view::Made| matches!(made.answer, Answer::Passed { .. });
    assert!(run.calls.iter().any(passed));
    let leavings = |party| {
        run.view(party)
            .iter()
            .filter(|s| **s == Seen::Leaving)
            .count()
    };
    assert_eq!((leavings(Ours), leavings(Theirs)), (1, 1));
    for party in Party::BOTH {
        assert_eq!(run.post_against_view(party), None);
    }
}

#[test]
fn the_numbers_of_the_parties() {
    assert_eq!(Party::of_number(0), Some(Ours));
    assert_eq!(Party::of_number(1), Some(Theirs));
    assert_eq!(Party::of_number(2), None);
    assert_eq!(Party::of_number(u32::MAX), None);
    for party in Party::BOTH {
        assert_eq!(Party::of_number(party.number()), Some(party));
        assert_eq!(party.other().other(), party);
        assert_ne!(party.other(), party);
    }
    assert_eq!(Refusal::TooManyPlaces.to_string(), "refused 16");
}

#[test]
fn a_post_to_a_stream_that_is_not_there_is_nobodys() {
    let mut run = WholeRun::start(&three_streams(), &parties(0, 0, &[]), PARTIES).expect("a start");
    for stream in [3, 15, 16, u32::MAX] {
        assert_eq!(run.call(Step::Post(stream)), refused(Refusal::NoSuchStream));
        assert_eq!(run.owner(stream), None);
    }
    assert!(run.view(Ours).is_empty() && run.view(Theirs).is_empty());
}
