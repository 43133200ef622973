//! States and steps.

mod common;

use common::{every, set_b, stream};
use second::refusal::Refusal;
use second::requests::{PIECES, RENDERED};
use second::set::Set;
use second::state::{Answer, Choice, Message, State, LAST_CLOCK};

/// Before there are doors.
fn started(set: &Set) -> State {
    let (state, result) = State::start(set, PIECES);
    assert_eq!(result, Ok(()));
    state
}

fn message(stream: u32, deadline: u32, used: u32) -> Message {
    Message {
        stream,
        deadline,
        used,
        stage: 0,
    }
}

fn refused(refusal: Refusal) -> Answer {
    Answer::Refused(refusal)
}

fn choice(task: u32, stream: u32) -> Result<Option<Choice>, Refusal> {
    Ok(Some(Choice { task, stream }))
}

/// A well formed state of set B at clock 10 with all three streams pending and one started.
fn state_in_hand() -> State {
    let mut state = started(&set_b());
    state.clock = 10;
    state.pending = 3;
    state.messages[0] = message(1, 24, 1);
    state.messages[1] = message(2, 16, 0);
    state.messages[2] = message(0, 15, 0);
    assert!(state.well_formed());
    state
}

#[test]
fn start_of_an_invalid_set() {
    let mut invalid = set_b();
    invalid.count = 17;
    assert_eq!(
        State::start(&invalid, RENDERED),
        (State::empty(RENDERED), Err(Refusal::OutOfRule))
    );
}

#[test]
fn refusal_1_before_2() {
    let mut state = started(&set_b());
    for _ in 0..64 {
        assert_eq!(state.post(3), refused(Refusal::NoSuchStream));
        assert!(matches!(state.post(0), Answer::Posted { .. }));
    }
    assert_eq!(state.post(3), refused(Refusal::NoSuchStream));
    assert_eq!(state.post(u32::MAX), refused(Refusal::NoSuchStream));
    assert_eq!(state.post(0), refused(Refusal::Full));
}

#[test]
fn the_64th_and_the_65th_post() {
    let mut state = started(&set_b());
    for _ in 0..63 {
        state.post(1);
    }
    assert_eq!(
        state.post(2),
        Answer::Posted {
            stream: 2,
            deadline: 8
        }
    );
    assert_eq!(state.messages[63], message(2, 8, 0));
    let full = state.clone();
    assert_eq!(state.post(0), refused(Refusal::Full));
    assert_eq!(state, full);
    // "A place freed by a leaving message takes the next post."
    assert!(matches!(state.unit(true), Answer::Finished { .. }));
    assert_eq!(state.pending, 63);
    assert_eq!(state.messages[63], Message::UNUSED);
    assert!(matches!(state.post(0), Answer::Posted { .. }));
    assert_eq!(state.messages[63], message(0, 6, 0));
    assert_eq!(state.post(0), refused(Refusal::Full));
}

#[test]
fn the_last_clock() {
    let mut state = started(&set_b());
    state.clock = LAST_CLOCK - 1;
    assert_eq!(state.unit(false), Answer::Idle);
    let last = state.clone();
    assert_eq!(state.unit(false), refused(Refusal::LastClock));
    // 3 comes before 4.
    assert_eq!(state.unit(true), refused(Refusal::LastClock));
    assert_eq!(state, last);
    // "Posting at the last clock is allowed."
    assert_eq!(
        state.post(1),
        Answer::Posted {
            stream: 1,
            deadline: 4_000_000_020
        }
    );
    assert!(state.well_formed());
    assert_eq!(state.choose(), choice(0, 1));
    assert_eq!(state.unit(false), refused(Refusal::LastClock));
    assert_eq!(state.unit(true), refused(Refusal::LastClock));
    // 12 comes before all others.
    state.clock = LAST_CLOCK + 1;
    assert_eq!(state.unit(false), refused(Refusal::NotWellFormed));
    assert_eq!(state.post(3), refused(Refusal::NotWellFormed));
}

#[test]
fn the_last_unit() {
    let mut state = started(&set_b());
    state.clock = LAST_CLOCK - 1;
    state.post(0);
    assert_eq!(
        state.unit(true),
        Answer::Finished {
            task: 0,
            stream: 0,
            laxity: 4
        }
    );
    assert_eq!(state.clock, LAST_CLOCK);
    assert!(state.well_formed());
}

#[test]
fn done_with_nothing_pending() {
    let mut state = started(&set_b());
    assert_eq!(state.unit(true), refused(Refusal::NothingPending));
    assert_eq!(state, started(&set_b()));
    assert_eq!(state.unit(false), Answer::Idle);
    assert_eq!(state.clock, 1);
}

#[test]
fn done_on_the_unit_that_reaches_c_is_finished_and_not_cut() {
    let mut state = started(&set_b());
    state.post(0);
    state.unit(false);
    assert_eq!(
        state.unit(true),
        Answer::Finished {
            task: 0,
            stream: 0,
            laxity: 3
        }
    );
    state.post(0);
    state.unit(false);
    assert_eq!(
        state.unit(false),
        Answer::Cut {
            task: 0,
            stream: 0,
            laxity: 3
        }
    );
}

#[test]
fn laxity_is_zero_at_the_deadline_and_negative_after_it() {
    let set = Set::of(&[stream(0, 3, 1, &[every(3, 0)])]);
    for (units, laxity) in [(0, 0), (1, -1), (2, -2)] {
        let mut state = started(&set);
        state.post(0);
        for _ in 0..units {
            state.unit(false);
        }
        assert_eq!(
            state.unit(true),
            Answer::Finished {
                task: 0,
                stream: 0,
                laxity
            }
        );
    }
}

#[test]
fn messages_of_a_task_are_not_served_in_order_of_arrival() {
    // The March fault.
    let mut state = started(&set_b());
    state.post(1);
    state.post(0);
    assert_eq!(state.choose(), choice(0, 0));
}

#[test]
fn a_started_message_runs_on_under_the_shorter_deadline() {
    let mut state = started(&set_b());
    state.post(1);
    state.unit(false);
    state.post(2); // task 1, deadline 9
    assert_eq!(state.choose(), choice(1, 2));
    state.post(0); // task 0, deadline 6
    assert_eq!(state.choose(), choice(0, 1));
}

#[test]
fn ties_between_tasks_go_to_the_lowest_and_within_a_task_to_the_earliest() {
    let set = Set::of(&[
        stream(5, 2, 10, &[every(20, 0)]),
        stream(4, 2, 9, &[every(20, 0)]),
        stream(4, 2, 8, &[every(20, 0)]),
    ]);
    let mut state = started(&set);
    state.post(0); // deadline 10
    state.unit(false);
    state.post(1); // deadline 10
    assert_eq!(state.choose(), choice(4, 1));
    let mut state = started(&set);
    state.post(1); // deadline 9
    state.clock = 1;
    state.post(2); // deadline 9
    assert_eq!(state.choose(), choice(4, 1));
}

#[test]
fn the_order_of_the_rest_is_kept() {
    let mut state = state_in_hand();
    state.messages[0].used = 3;
    assert!(matches!(state.unit(false), Answer::Cut { stream: 1, .. }));
    assert_eq!(state.pending, 2);
    assert_eq!(state.messages[0], message(2, 16, 0));
    assert_eq!(state.messages[1], message(0, 15, 0));
    assert_eq!(state.messages[2], Message::UNUSED);
    assert!(matches!(
        state.unit(true),
        Answer::Finished { stream: 0, .. }
    ));
    assert_eq!(state.pending_messages(), [message(2, 16, 0)]);
}

#[test]
fn nothing_is_chosen_with_nothing_pending() {
    assert_eq!(started(&set_b()).choose(), Ok(None));
}

/// Changes that break one clause of the rules each.
const FAULTS: &[fn(&mut State)] = &[
    // "the set is valid"
    |state| state.set.streams[0].deadline = 0,
    |state| state.set.streams[9].stages[0].task = 1,
    // "there are at most 64 messages"
    |state| state.pending = 65,
    |state| state.pending = u32::MAX,
    // "the clock is at most 4,000,000,000"
    |state| state.clock = LAST_CLOCK + 1,
    |state| state.clock = u32::MAX,
    // "each message names a stream of the set"
    |state| state.messages[0].stream = 3,
    |state| state.messages[1].stream = u32::MAX,
    // "has used less than c"
    |state| state.messages[0].used = 4,
    |state| state.messages[0].used = u32::MAX,
    // "has a deadline from d to clock + d"
    |state| state.messages[0].deadline = 19,
    |state| state.messages[2].deadline = 16,
    |state| state.messages[2].deadline = u32::MAX,
    |state| state.clock = 9,
    // "deadline less d never falls along the order"
    |state| state.messages[0].deadline = 29,
    |state| state.messages[2].deadline = 12,
    // "each task has at most one message with a used unit"
    |state| state.messages[2].used = 1,
    // "unused places are zero"
    |state| state.pending = 2,
    |state| state.messages[3].stream = 1,
    |state| state.messages[3].deadline = 1,
    |state| state.messages[63].used = 1,
    // A place that is not filled is no message in rule.
    |state| state.pending = 4,
];

#[test]
fn a_state_that_is_not_well_formed_is_refused_by_every_call() {
    for (number, fault) in FAULTS.iter().enumerate() {
        let mut state = state_in_hand();
        fault(&mut state);
        let before = state.clone();
        let not_formed = refused(Refusal::NotWellFormed);
        assert!(!state.well_formed(), "fault {number}");
        assert_eq!(state.choose(), Err(Refusal::NotWellFormed));
        assert_eq!(state.post(0), not_formed);
        assert_eq!(state.post(99), not_formed);
        assert_eq!(state.unit(false), not_formed);
        assert_eq!(state.unit(true), not_formed);
        assert_eq!(state, before, "fault {number}");
    }
}

#[test]
fn a_state_at_the_edge_of_the_rules_is_well_formed() {
    let edges: &[fn(&mut State)] = &[
        |state| state.clock = LAST_CLOCK,
        |state| state.messages[0].used = 3,
        |state| state.messages[0].deadline = 20,
        |state| state.messages[0].deadline = 28,
        |state| state.messages[2].deadline = 13,
        |state| state.messages[1].used = 1,
        |state| {
            state.messages[0].used = 0;
            state.messages[2].used = 1;
        },
    ];
    for (number, edge) in edges.iter().enumerate() {
        let mut state = state_in_hand();
        edge(&mut state);
        assert!(state.well_formed(), "edge {number}");
    }
}
