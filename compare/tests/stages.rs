//! Stages (request 4): sets, demand, states, steps and the console.

mod common;

use common::{every, full_set_of_stages, once, said_from, set_b, set_of_stages, staged, stream};
use second::load::{demand, verdict, verdict_each_length, Verdict};
use second::refusal::Refusal;
use second::requests::{PIECES, RENDERED, STAGES};
use second::set::{event_limit, Set, Stage};
use second::state::{Answer, Choice, Message, State, LAST_CLOCK};

/// All that a script prints once request 4 is in force.
fn said(script: &str) -> String {
    said_from(STAGES, script)
}

fn two(streams: &[second::set::Stream]) -> Set {
    Set::of_version(2, streams)
}

/// Before there are doors.
fn started(set: &Set) -> State {
    let (state, result) = State::start(set, PIECES);
    assert_eq!(result, Ok(()));
    state
}

fn message(stream: u32, deadline: u32, used: u32, stage: u32) -> Message {
    Message {
        stream,
        deadline,
        used,
        stage,
    }
}

fn both_verdicts(set: &Set) -> Verdict {
    let found = verdict(set);
    assert_eq!(found, verdict_each_length(set));
    found
}

#[test]
fn sets_at_the_edges_of_the_rules_are_valid() {
    assert!(full_set_of_stages().valid());
    assert!(set_of_stages().valid());
    assert!(two(&[]).valid());
    assert!(two(set_b().used_streams()).valid());
    for count in 1..=4 {
        assert!(two(&[staged(&vec![(15, 65_535); count], 200_000, &[once(0)])]).valid());
        assert!(two(&[staged(&vec![(0, 1); count], 1, &[once(0)])]).valid());
    }
}

#[test]
fn sets_out_of_rule_are_invalid() {
    type Change = fn(&mut Set);
    let changes: &[Change] = &[
        |set| set.version = 0,
        |set| set.version = 1,
        |set| set.version = 3,
        |set| set.version = 16,
        |set| set.version = 258,
        |set| set.version = u32::MAX,
        |set| set.streams[0].stage_count = 0,
        |set| set.streams[0].stage_count = 1,
        |set| set.streams[0].stage_count = 3,
        |set| set.streams[0].stage_count = 5,
        |set| set.streams[0].stage_count = u32::MAX,
        |set| set.streams[0].stages[0].task = 16,
        |set| set.streams[0].stages[1].task = 16,
        |set| set.streams[0].stages[1].task = u32::MAX,
        |set| set.streams[0].stages[0].cost = 0,
        |set| set.streams[0].stages[1].cost = 0,
        |set| set.streams[0].stages[1].cost = 65_536,
        |set| {
            set.streams[0].stages = [Stage {
                task: 0,
                cost: u32::MAX,
            }; 4]
        },
        |set| set.streams[0].stages[2].task = 1,
        |set| set.streams[0].stages[2].cost = 1,
        |set| set.streams[0].stages[3].task = 1,
        |set| set.streams[1].stages[3].cost = 1,
        |set| set.streams[2].stage_count = 1,
        |set| set.streams[2].stages[0].task = 1,
        |set| set.streams[15].stages[3].cost = 1,
        |set| set.streams[15].stage_count = u32::MAX,
    ];
    for (number, change) in changes.iter().enumerate() {
        let mut set = set_of_stages();
        change(&mut set);
        let refused = Err(Refusal::OutOfRule);
        assert!(!set.valid(), "change {number}");
        assert_eq!(both_verdicts(&set), Verdict::Refused(Refusal::OutOfRule));
        assert_eq!(demand(&set, u32::MAX), refused);
        assert_eq!(event_limit(&set, 0, u32::MAX), refused);
        // A refusal's empty set is version 1.
        assert_eq!(
            State::start(&set, RENDERED),
            (State::empty(RENDERED), Err(Refusal::OutOfRule))
        );
        let mut state = started(&set_of_stages());
        state.set = set;
        assert!(!state.well_formed(), "change {number}");
    }
    assert_eq!(State::empty(RENDERED).set.version, 1);
}

#[test]
fn demand_takes_the_sum_of_the_costs() {
    let set = two(&[staged(&[(0, 2), (1, 3), (0, 4)], 10, &[every(20, 0)])]);
    for (length, expected) in [(9, 0), (10, 9), (29, 9), (30, 18)] {
        assert_eq!(demand(&set, length), Ok(expected));
    }
    assert_eq!(both_verdicts(&set), Verdict::Accept);
    // The sum of four greatest costs, as often as 32 bits have lengths.
    let set = two(&[staged(&[(0, 65_535); 4], 1, &[every(1, 0); 4])]);
    let limit = u64::from(u32::MAX) * 4;
    assert_eq!(demand(&set, u32::MAX), Ok(4 * 65_535 * limit));
    assert_eq!(both_verdicts(&set), Verdict::Overload);
}

#[test]
fn long_run_load_takes_the_sum_of_the_costs() {
    let set = |cost| two(&[staged(&[(0, 4), (1, 5), (2, cost)], 10, &[every(10, 0)])]);
    assert_eq!(both_verdicts(&set(1)), Verdict::Accept);
    assert_eq!(both_verdicts(&set(2)), Verdict::Overload);
}

#[test]
fn blocking_uses_each_stage_on_a_task_separately() {
    let urgent = staged(&[(0, 1), (3, 1)], 5, &[once(0)]);
    // On task 0 the largest of 7 and 4 less one, on task 3 the 6 less one; task 1 is not urgent.
    let slow = staged(&[(0, 7), (3, 6), (0, 4), (1, 90)], 300, &[once(0)]);
    let set = two(&[urgent, slow]);
    assert_eq!(demand(&set, 4), Ok(0));
    assert_eq!(demand(&set, 5), Ok(2 + 6 + 5));
    assert_eq!(demand(&set, 299), Ok(2 + 6 + 5));
    assert_eq!(demand(&set, 300), Ok(2 + 107));
    // A stage of cost 1 blocks nothing.
    let set = two(&[urgent, staged(&[(0, 1), (3, 1), (1, 9)], 40, &[once(0)])]);
    assert_eq!(demand(&set, 5), Ok(2));
    // The stream with the shorter deadline alone makes its tasks urgent, by any of its stages.
    let set = two(&[
        staged(&[(2, 1), (0, 1)], 5, &[once(0)]),
        staged(&[(1, 1), (0, 5)], 9, &[once(0)]),
        staged(&[(1, 8)], 40, &[once(0)]),
    ]);
    assert_eq!(demand(&set, 5), Ok(2 + 4));
    assert_eq!(demand(&set, 8), Ok(2 + 4));
    assert_eq!(demand(&set, 9), Ok(2 + 6 + 7));
}

#[test]
fn accepted_on_two_tasks_and_late_on_one() {
    let set = |tasks: [u32; 2]| {
        two(&[
            stream(1, 1, 4, &[every(20, 0)]),
            staged(&[(tasks[0], 4), (tasks[1], 5)], 20, &[every(20, 0)]),
        ])
    };
    assert_eq!(both_verdicts(&set([2, 3])), Verdict::Accept);
    let late = |demand| Verdict::Late { length: 4, demand };
    assert_eq!(both_verdicts(&set([1, 1])), late(5));
    assert_eq!(both_verdicts(&set([2, 1])), late(5));
    assert_eq!(both_verdicts(&set([1, 2])), Verdict::Accept);
}

#[test]
fn a_message_passes_through_its_stages_in_its_place() {
    let set = two(&[
        staged(&[(1, 2), (1, 3), (5, 4), (0, 1)], 40, &[every(50, 0)]),
        stream(9, 2, 100, &[every(50, 0)]),
    ]);
    let mut state = started(&set);
    state.post(1);
    state.post(0);
    state.post(1);
    let passed = |task| Answer::Passed { task, stream: 0 };
    assert_eq!(state.unit(true), passed(1));
    assert_eq!(state.clock, 1);
    assert_eq!(
        state.pending_messages(),
        [
            message(1, 100, 0, 0),
            message(0, 40, 0, 1),
            message(1, 100, 0, 0)
        ]
    );
    assert!(state.well_formed());
    assert_eq!(state.unit(false), Answer::Ran { task: 1, stream: 0 });
    assert_eq!(state.messages[1], message(0, 40, 1, 1));
    // Done on the unit that reaches the stage's cost is passed and not cut.
    assert_eq!(state.unit(false), Answer::Ran { task: 1, stream: 0 });
    assert_eq!(state.unit(true), passed(1));
    assert_eq!(state.messages[1], message(0, 40, 0, 2));
    let choice = Choice { task: 5, stream: 0 };
    assert_eq!(state.choose(), Ok(Some(choice)));
    assert_eq!(state.unit(true), passed(5));
    assert_eq!(
        state.unit(true),
        Answer::Finished {
            task: 0,
            stream: 0,
            laxity: 40 - 6
        }
    );
    assert_eq!(
        state.pending_messages(),
        [message(1, 100, 0, 0), message(1, 100, 0, 0)]
    );
    assert_eq!(state.messages[2], Message::UNUSED);
}

#[test]
fn a_cut_at_any_stage_leaves_at_once() {
    let set = two(&[staged(
        &[(1, 1), (1, 2), (5, 3), (0, 1)],
        40,
        &[every(50, 0)],
    )]);
    for (stage, (task, cost)) in [(1, 1), (1, 2), (5, 3), (0, 1)].into_iter().enumerate() {
        let mut state = started(&set);
        state.post(0);
        for _ in 0..stage {
            assert!(matches!(state.unit(true), Answer::Passed { .. }));
        }
        for _ in 1..cost {
            assert_eq!(state.unit(false), Answer::Ran { task, stream: 0 });
        }
        let laxity = i64::from(40 - stage as u32 - cost);
        assert_eq!(
            state.unit(false),
            Answer::Cut {
                task,
                stream: 0,
                laxity
            }
        );
        assert_eq!(state.pending, 0);
        assert_eq!(state.messages[0], Message::UNUSED);
    }
}

#[test]
fn a_passed_message_waits_for_the_one_that_its_next_task_has_started() {
    let set = set_of_stages();
    let mut state = started(&set);
    state.post(1); // task 4, deadline 30
    state.unit(false);
    state.post(0); // task 1 and then task 4, deadline 13
    assert!(matches!(state.unit(true), Answer::Passed { .. }));
    // Task 4 has the shorter deadline now, and serves the message it has started.
    let choice = |stream| Ok(Some(Choice { task: 4, stream }));
    assert_eq!(state.choose(), choice(1));
    assert!(matches!(state.unit(true), Answer::Finished { .. }));
    assert_eq!(state.choose(), choice(0));
}

#[test]
fn a_message_that_passed_to_the_same_task_is_no_longer_its_started_one() {
    let set = two(&[
        staged(&[(0, 5), (0, 5)], 40, &[every(50, 0)]),
        stream(0, 2, 10, &[every(50, 0)]),
    ]);
    let mut state = started(&set);
    state.post(0);
    state.unit(false);
    state.post(1);
    let choice = |stream| Ok(Some(Choice { task: 0, stream }));
    assert_eq!(state.choose(), choice(0));
    assert!(matches!(state.unit(true), Answer::Passed { .. }));
    assert_eq!(state.choose(), choice(1));
}

/// A well formed state with messages in three stages, two of them started.
fn state_in_hand() -> State {
    let set = two(&[
        staged(&[(1, 2), (4, 3), (1, 5)], 12, &[every(50, 0)]),
        staged(&[(4, 2), (7, 1)], 30, &[every(50, 0)]),
    ]);
    let mut state = started(&set);
    state.clock = 10;
    state.pending = 3;
    state.messages[0] = message(0, 14, 4, 2);
    state.messages[1] = message(1, 34, 0, 1);
    state.messages[2] = message(0, 18, 2, 1);
    assert!(state.well_formed());
    state
}

#[test]
fn states_out_of_rule() {
    let faults: &[fn(&mut State)] = &[
        // "the stage is one of its stream's"
        |state| state.messages[0].stage = 3,
        |state| state.messages[0].stage = 4,
        |state| state.messages[0].stage = u32::MAX,
        |state| state.messages[1].stage = 2,
        // "it has used less than that stage's cost"
        |state| state.messages[0].used = 5,
        |state| state.messages[0].stage = 1,
        |state| state.messages[1].used = 1,
        |state| state.messages[2].used = 3,
        |state| state.messages[2].used = u32::MAX,
        // "each task has at most one message in a stage of that task with a used unit"
        |state| state.messages[2].stage = 2,
        |state| state.messages[1] = message(1, 34, 1, 0),
        |state| {
            state.messages[2].used = 1;
            state.messages[2].stage = 0;
        },
        // "unused places are zero", the stage too
        |state| state.messages[3].stage = 1,
        |state| state.messages[63].stage = u32::MAX,
        |state| {
            state.pending = 0;
            state.messages = [message(0, 0, 0, 0); 64];
            state.messages[0].stage = 1;
        },
        // The set
        |state| state.set.version = 1,
        |state| state.set.version = u32::MAX,
        |state| state.set.streams[0].stage_count = u32::MAX,
    ];
    for (number, fault) in faults.iter().enumerate() {
        let mut state = state_in_hand();
        fault(&mut state);
        let before = state.clone();
        let refused = Answer::Refused(Refusal::NotWellFormed);
        assert!(!state.well_formed(), "fault {number}");
        assert_eq!(state.choose(), Err(Refusal::NotWellFormed));
        assert_eq!(state.post(0), refused);
        assert_eq!(state.post(99), refused);
        assert_eq!(state.unit(false), refused);
        assert_eq!(state.unit(true), refused);
        assert_eq!(state, before, "fault {number}");
    }
}

#[test]
fn states_at_the_edge_of_the_rules() {
    let edges: &[fn(&mut State)] = &[
        |state| state.messages[0].used = 0,
        |state| state.messages[2].used = 0,
        |state| state.messages[0] = message(0, 14, 1, 0),
        // Started in other tasks, though in stages of one stream.
        |state| {
            state.messages[0] = message(0, 14, 2, 1);
            state.messages[2] = message(0, 18, 4, 2);
        },
        |state| state.clock = LAST_CLOCK,
        |state| state.messages[1] = message(1, 34, 0, 0),
    ];
    for (number, edge) in edges.iter().enumerate() {
        let mut state = state_in_hand();
        edge(&mut state);
        assert!(state.well_formed(), "edge {number}");
    }
}

#[test]
fn refusals_come_before_a_message_passes() {
    let mut state = state_in_hand();
    state.clock = LAST_CLOCK;
    let before = state.clone();
    assert_eq!(state.unit(true), Answer::Refused(Refusal::LastClock));
    assert_eq!(state, before);
    state.clock = LAST_CLOCK - 1;
    assert!(matches!(state.unit(false), Answer::Cut { .. }));
    assert_eq!(state.clock, LAST_CLOCK);
    let mut state = started(&set_of_stages());
    assert_eq!(state.unit(true), Answer::Refused(Refusal::NothingPending));
}

#[test]
fn a_version_2_set_of_one_stage_each_runs_as_version_1() {
    let sets = [set_b(), two(set_b().used_streams())];
    let [mut one, mut other] = sets.map(|set| started(&set));
    for length in 0..60 {
        assert_eq!(demand(&sets[0], length), demand(&sets[1], length));
    }
    for step in "p1up2p0uududududuuup0up1p2uuuuuuuud".bytes() {
        let call = |state: &mut State| match step {
            b'u' => state.unit(false),
            b'd' => state.unit(true),
            b'p' => Answer::Idle,
            digit => state.post(u32::from(digit - b'0')),
        };
        assert_eq!(call(&mut one), call(&mut other));
        assert_eq!(one.messages, other.messages);
    }
}

#[test]
fn stages_in_the_console() {
    for line in [
        "stages 15 4294967295",
        "stage 15 3 4294967295 4294967295",
        "staged 63 4294967295",
        "version 0",
    ] {
        assert_eq!(said(line), "put\n", "{line}");
    }
    for line in [
        "version",
        "version 1 1",
        "version 4294967296",
        "stages 16 1",
        "stages 0",
        "stages 0 1 1",
        "stage 16 0 0 0",
        "stage 0 4 0 0",
        "stage 0 4294967295 0 0",
        "stage 0 0 0",
        "staged 64 0",
        "staged 0",
        "staged 0 0 0",
    ] {
        assert_eq!(said(line), "?\n", "{line}");
    }
}

#[test]
fn the_number_of_stages_that_stream_puts() {
    // Any of the four numbers that is not 0 makes it 1.
    for line in ["1 0 0 0", "0 1 0 0", "0 0 1 0", "0 0 0 1"] {
        let script = format!("stream 9 {line}\nstream 9 0 0 0 0\nvalid");
        assert_eq!(said(&script), "put\nput\nvalid\n", "{line}");
    }
    let script = "\
stages 9 1
valid
stream 9 0 0 0 0
valid
stage 9 2 0 1
stream 9 0 0 0 0
valid
stage 9 2 0 0
valid";
    assert_eq!(
        said(script),
        "put\ninvalid\nput\nvalid\nput\nput\ninvalid\nput\nvalid\n"
    );
}

#[test]
fn the_lines_of_stages_stand_behind_the_messages() {
    let script = "\
message 5 1 2 3
staged 5 4294967295
staged 2 7
message 63 0 0 1
staged 0 1
staged 63 2
state
message 5 1 2 3
staged 2 0
state";
    let expected = "\
put
put
put
put
put
put
clock 0
pending 0
message 5 1 2 3
message 63 0 0 1
staged 0 1
staged 2 7
staged 5 4294967295
staged 63 2
put
put
clock 0
pending 0
message 5 1 2 3
message 63 0 0 1
staged 0 1
staged 63 2
";
    assert_eq!(said(script), expected);
}

#[test]
fn versions_in_the_console() {
    // The empty set of each version; a refused start and a refused sheet leave version 1.
    let script = "\
version 2
valid
start
write 2
version 3
valid
start
write 2
read 30
write 2";
    let expected = "\
put
valid
started
wrote 2
2000
put
invalid
refused 7
refused 7
aaaa
refused 6
wrote 2
1000
";
    assert_eq!(said(script), expected);
}

#[test]
fn numbers_of_any_size_stop_nothing() {
    let mut script = String::from("streams 1\nstream 0 1 1 5 1\nversion 2\n");
    for number in ["0", "4", "5", "65536", "2147483648", "4294967295"] {
        for line in ["stages 0 N", "stage 0 0 N N", "stage 0 3 0 N", "version N"] {
            script += &line.replace('N', number);
            script +=
                "\nvalid\nverdict\ndemand 4294967295\nlimit 0 5\nwrite 4\nstart\npost 0\nunit\n";
        }
    }
    for number in ["0", "1", "4", "65536", "4294967295"] {
        script += "read 2000\nstart\n";
        script += &format!("pending {number}\nmessage 0 {number} {number} {number}\n");
        script += &format!("staged 0 {number}\nformed\nchoose\nunit\ndone\npost 0\nstate\n");
    }
    assert!(!said(&script).contains('?'));
}
