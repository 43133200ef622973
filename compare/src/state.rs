//! "State and steps": the state, when it is well formed, and the calls start, post, choose, unit.
//!
//! A state here can hold any number in any place, so that states no call can leave can be put.
//!
//! With request 6 in force a state also knows the accepted posts since its start, with their true
//! times, and a post to a stream with a door is judged by them. The wait that the state keeps is
//! judged beside it, and the program stops where the two disagree. After a wait was put by hand
//! there is no run from a start that led to it, and the wait alone decides.
//!
//! With request 8 in force a state also has the owners of its streams and the places of the two
//! parties. That a party's answers come from what it sees of a run alone is for [`crate::view`].

use std::fmt;

use crate::door::History;
use crate::parties::{Parties, Party};
use crate::refusal::Refusal;
use crate::requests::{DOOR, PARTIES};
use crate::set::{Set, Stage, Stream, GREATEST_TASK, STREAM_PLACES};

/// "up to 64 pending messages"
pub const MESSAGE_PLACES: usize = 64;
/// "the clock is at most 4,000,000,000"
pub const LAST_CLOCK: u32 = 4_000_000_000;

/// A message: "each with stream, absolute deadline and units used"; "its stage, last".
#[derive(Clone, Copy, Debug, PartialEq, Eq)]
pub struct Message {
    /// The number of its stream.
    pub stream: u32,
    /// The absolute deadline.
    pub deadline: u32,
    /// The units used.
    pub used: u32,
    /// The stage it is in, from 0.
    pub stage: u32,
}

impl Message {
    /// "unused places are zero"
    pub const UNUSED: Message = Message {
        stream: 0,
        deadline: 0,
        used: 0,
        stage: 0,
    };

    fn started(&self) -> bool {
        self.used > 0
    }
}

/// "The state holds a set, the clock and up to 64 pending messages in posting order".
#[derive(Clone, Debug)]
pub struct State {
    /// The set.
    pub set: Set,
    /// The clock.
    pub clock: u32,
    /// How many of the message places are used.
    pub pending: u32,
    /// The message places.
    pub messages: [Message; MESSAGE_PLACES],
    /// "Kept for each stream, in the state: a wait, 0 at the start."
    pub waits: [u32; STREAM_PLACES],
    /// "State: owners and places, last."
    pub parties: Parties,
    /// What led to it.
    past: Past,
}

/// What is known beside a state of the calls that led to it.
#[derive(Clone, Debug)]
struct Past {
    /// The requests that are in force: all up to this number.
    requests: u32,
    /// True time: the units that moved the clock since the start.
    time: u64,
    /// The accepted posts of each stream since the start; none where its wait was put by hand.
    histories: [Option<History>; STREAM_PLACES],
}

impl Past {
    const fn new(requests: u32) -> Past {
        const NONE_YET: Option<History> = Some(History::NEW);
        Past {
            requests,
            time: 0,
            histories: [NONE_YET; STREAM_PLACES],
        }
    }
}

/// Two states are equal if they hold the same, whatever led to them.
impl PartialEq for State {
    fn eq(&self, other: &State) -> bool {
        let held = |state: &State| (state.set, state.clock, state.pending, state.waits);
        held(self) == held(other)
            && self.messages == other.messages
            && self.parties == other.parties
    }
}

impl Eq for State {}

/// What a step answers.
#[derive(Clone, Copy, Debug, PartialEq, Eq)]
pub enum Answer {
    /// The message was posted.
    Posted {
        /// Its stream.
        stream: u32,
        /// Its absolute deadline.
        deadline: u32,
    },
    /// "Otherwise it stays as ran."
    Ran {
        /// The task that ran.
        task: u32,
        /// The stream of its message.
        stream: u32,
    },
    /// "If done, it leaves as finished."
    Finished {
        /// The task that ran.
        task: u32,
        /// The stream of its message.
        stream: u32,
        /// The deadline minus the clock after the unit.
        laxity: i64,
    },
    /// "Finished means the last; an earlier one answers passed."
    Passed {
        /// The task that ran.
        task: u32,
        /// The stream of its message.
        stream: u32,
    },
    /// "If not done and its used units now equal c, it leaves as cut."
    Cut {
        /// The task that ran.
        task: u32,
        /// The stream of its message.
        stream: u32,
        /// The deadline minus the clock after the unit.
        laxity: i64,
    },
    /// "With nothing pending and not done, the answer is idle".
    Idle,
    /// A refusal; the state is unchanged.
    Refused(Refusal),
}

impl fmt::Display for Answer {
    /// "(posted stream deadline; ran task stream; done or cut task stream laxity; idle;
    /// refused N)"; "The trace program prints passed with task and stream."
    fn fmt(&self, out: &mut fmt::Formatter) -> fmt::Result {
        match self {
            Answer::Posted { stream, deadline } => write!(out, "posted {stream} {deadline}"),
            Answer::Ran { task, stream } => write!(out, "ran {task} {stream}"),
            Answer::Finished {
                task,
                stream,
                laxity,
            } => write!(out, "done {task} {stream} {laxity}"),
            Answer::Passed { task, stream } => write!(out, "passed {task} {stream}"),
            Answer::Cut {
                task,
                stream,
                laxity,
            } => write!(out, "cut {task} {stream} {laxity}"),
            Answer::Idle => write!(out, "idle"),
            Answer::Refused(refusal) => write!(out, "{refusal}"),
        }
    }
}

/// The task that is chosen and the stream of the message it serves.
#[derive(Clone, Copy, Debug, PartialEq, Eq)]
pub struct Choice {
    /// The task.
    pub task: u32,
    /// The stream of the message it serves.
    pub stream: u32,
}

impl State {
    /// The start of the empty set, with the requests up to a number in force.
    pub const fn empty(requests: u32) -> State {
        State {
            set: Set::EMPTY,
            clock: 0,
            pending: 0,
            messages: [Message::UNUSED; MESSAGE_PLACES],
            waits: [0; STREAM_PLACES],
            parties: Parties::US_ALONE,
            past: Past::new(requests),
        }
    }

    /// "Start. A valid set gives the clock at 0 and no message. An invalid one gives 7 and the
    /// start of the empty set."
    ///
    /// The requests up to a number are in force for the calls that follow. With request 8: "The old
    /// `start` with one argument stays as what it is: all ours, 64 and 0."
    pub fn start(set: &Set, requests: u32) -> (State, Result<(), Refusal>) {
        State::start_shared(set, &Parties::US_ALONE, requests)
    }

    /// "`start(set, owners, places)`": "7, then 16 if the places together exceed 64 (they are any
    /// numbers; the sum may not overflow), each with the start of the empty set (ours, 64 and 0).
    /// The owners of streams that the set does not have are taken as ours."
    ///
    /// Before request 8 there is one party, whatever is given.
    pub fn start_shared(
        set: &Set,
        parties: &Parties,
        requests: u32,
    ) -> (State, Result<(), Refusal>) {
        let parties = match requests {
            PARTIES.. => parties,
            _ => &Parties::US_ALONE,
        };
        if !set.valid() {
            return (State::empty(requests), Err(Refusal::OutOfRule));
        }
        if !parties.places.in_rule() {
            return (State::empty(requests), Err(Refusal::TooManyPlaces));
        }
        let state = State {
            set: *set,
            parties: parties.at_start_of(set),
            ..State::empty(requests)
        };
        (state, Ok(()))
    }

    /// The pending messages of a state with at most 64, in posting order.
    pub fn pending_messages(&self) -> &[Message] {
        &self.messages[..self.pending as usize]
    }

    /// The stream a message of a well formed state names.
    pub fn stream_of(&self, message: &Message) -> &Stream {
        &self.set.streams[message.stream as usize]
    }

    /// "A message's task and cost are those of its present stage": the stage that a message of a
    /// well formed state is in.
    pub fn stage_of(&self, message: &Message) -> Stage {
        self.stream_of(message).stages[message.stage as usize]
    }

    /// "It is well formed if the set is valid; there are at most 64 messages; the clock is at most
    /// 4,000,000,000; each message names a stream of the set, has used less than c, and has a
    /// deadline from d to clock + d; deadline less d never falls along the order; each task has at
    /// most one message with a used unit; unused places are zero."
    ///
    /// With stages: "the stage is one of its stream's; it has used less than that stage's cost;
    /// each task has at most one message *in a stage of that task* with a used unit".
    ///
    /// With the door: [`State::waits_in_rule`]. Before request 6 every wait is 0. With two parties:
    /// [`State::parties_in_rule`]. Before request 8 all is ours.
    pub fn well_formed(&self) -> bool {
        self.set.valid()
            && self.pending as usize <= MESSAGE_PLACES
            && self.clock <= LAST_CLOCK
            && self
                .pending_messages()
                .iter()
                .all(|message| self.message_in_rule(message))
            && self.in_posting_order()
            && self.one_started_for_each_task()
            && self.messages[self.pending as usize..]
                .iter()
                .all(|message| *message == Message::UNUSED)
            && self.waits_in_rule()
            && self.parties_in_rule()
    }

    /// "Rules: places together at most 64; unused streams ours; a party has at most its places
    /// pending." Each message must name a stream of the set.
    fn parties_in_rule(&self) -> bool {
        let within = |party| self.pending_of(party) <= self.parties.places.of(party);
        self.parties.places.in_rule()
            && self.parties.unused_are_ours(&self.set)
            && Party::BOTH.into_iter().all(within)
    }

    /// How many of the pending messages are of a party's streams. Each must name a stream of the
    /// set.
    pub fn pending_of(&self, party: Party) -> u32 {
        let owner = |message: &&Message| self.parties.owners[message.stream as usize];
        let messages = self.pending_messages().iter();
        messages.filter(|message| owner(message) == party).count() as u32
    }

    /// "Rules: a wait is at most 1 for the first kind, at most (z - a, or 0) + (the larger of a and
    /// z) for the other, 0 for a stream without a door and for unused places. 12 otherwise."
    fn waits_in_rule(&self) -> bool {
        self.waits.iter().enumerate().all(|(place, &wait)| {
            let used = self.set.used_streams().get(place);
            let door = used.and_then(|stream| stream.door());
            wait <= door.map_or(0, |door| door.greatest_wait())
        })
    }

    /// "each message names a stream of the set, has used less than c, and has a deadline from d to
    /// clock + d"; "the stage is one of its stream's; it has used less than that stage's cost"
    fn message_in_rule(&self, message: &Message) -> bool {
        if message.stream >= self.set.count {
            return false;
        }
        let stream = self.stream_of(message);
        if message.stage >= stream.stage_count {
            return false;
        }
        let least = u64::from(stream.deadline);
        let greatest = u64::from(self.clock) + u64::from(stream.deadline);
        message.used < self.stage_of(message).cost
            && (least..=greatest).contains(&u64::from(message.deadline))
    }

    /// "deadline less d never falls along the order"
    fn in_posting_order(&self) -> bool {
        let posted_at = |message: &Message| message.deadline - self.stream_of(message).deadline;
        self.pending_messages()
            .windows(2)
            .all(|pair| posted_at(&pair[0]) <= posted_at(&pair[1]))
    }

    /// "each task has at most one message *in a stage of that task* with a used unit"
    fn one_started_for_each_task(&self) -> bool {
        (0..=GREATEST_TASK).all(|task| {
            self.messages_of_task(task)
                .filter(|(_, message)| message.started())
                .count()
                <= 1
        })
    }

    /// The pending messages in a stage of a task, with their places, in posting order.
    fn messages_of_task(&self, task: u32) -> impl Iterator<Item = (usize, &Message)> + '_ {
        self.pending_messages()
            .iter()
            .enumerate()
            .filter(move |(_, message)| self.stage_of(message).task == task)
    }

    /// "Post. A message with deadline clock + d and 0 used goes last." Refusals: "post 12, 1, 2".
    /// "Posting at the last clock is allowed." With the door: "Order of post: 12, 1, 15, 2. A post
    /// that is refused by 2 adds nothing to the wait." With two parties: "A post is refused as full
    /// exactly when its own party has its number pending."
    pub fn post(&mut self, stream: u32) -> Answer {
        if !self.well_formed() {
            return Answer::Refused(Refusal::NotWellFormed);
        }
        if stream >= self.set.count {
            return Answer::Refused(Refusal::NoSuchStream);
        }
        if self.door_is_shut(stream as usize) {
            return Answer::Refused(Refusal::AtTheDoor);
        }
        let owner = self.parties.owners[stream as usize];
        if self.pending_of(owner) == self.parties.places.of(owner) {
            return Answer::Refused(Refusal::Full);
        }
        self.go_through_door(stream as usize);
        let deadline = self.clock + self.set.streams[stream as usize].deadline;
        self.messages[self.pending as usize] = Message {
            stream,
            deadline,
            used: 0,
            stage: 0,
        };
        self.pending += 1;
        Answer::Posted { stream, deadline }
    }

    /// "Post is to refuse, for a stream with one tuple or with once at 0 followed by one cycle,
    /// exactly when accepting would break that stream's limit given its accepted posts so far. For
    /// other streams nothing changes".
    ///
    /// Stops the program if the wait says otherwise.
    fn door_is_shut(&self, place: usize) -> bool {
        let stream = &self.set.streams[place];
        let Some(door) = stream.door().filter(|_| self.past.requests >= DOOR) else {
            return false;
        };
        let by_wait = self.waits[place] > door.open_up_to();
        let Some(history) = &self.past.histories[place] else {
            return by_wait;
        };
        let by_limit = history.would_break(stream, self.past.time);
        assert_eq!(
            by_wait, by_limit,
            "the wait {} of stream {place} ({door:?}) and its accepted posts disagree: {history:?} at {}",
            self.waits[place], self.past.time
        );
        by_limit
    }

    /// An accepted post is added to the history, and to the wait.
    fn go_through_door(&mut self, place: usize) {
        let stream = &self.set.streams[place];
        let Some(door) = stream.door().filter(|_| self.past.requests >= DOOR) else {
            return;
        };
        self.waits[place] += door.added();
        if let Some(history) = &mut self.past.histories[place] {
            history.accept(stream, self.past.time);
        }
    }

    /// Puts the wait of a stream place. No run from a start is known to lead to it.
    pub fn put_wait(&mut self, place: usize, wait: u32) {
        self.waits[place] = wait;
        self.past.histories[place] = None;
    }

    /// The clock moves by a unit: "each unit that moves the clock takes 1 from a wait that is not
    /// 0".
    fn move_clock(&mut self) {
        self.clock += 1;
        self.past.time += 1;
        for place in 0..self.set.count as usize {
            if let Some(door) = self.set.streams[place].door() {
                self.waits[place] = door.after_unit(self.waits[place]);
            }
        }
    }

    /// "A task's deadline is the least deadline of its pending messages, the started one included.
    /// This is the inheritance of 5.3.3."
    fn task_deadline(&self, task: u32) -> Option<u32> {
        self.messages_of_task(task)
            .map(|(_, message)| message.deadline)
            .min()
    }

    /// "The task with the least deadline runs; on a tie, the lowest task number." "With nothing
    /// pending the answer is none."
    fn chosen_task(&self) -> Option<u32> {
        let mut best: Option<(u32, u32)> = None;
        for task in 0..=GREATEST_TASK {
            if let Some(deadline) = self.task_deadline(task) {
                if best.is_none_or(|(_, least)| deadline < least) {
                    best = Some((task, deadline));
                }
            }
        }
        best.map(|(task, _)| task)
    }

    /// "It serves its started message if there is one, else its message of least deadline, on a
    /// tie the earliest posted." The place of that message.
    fn served_place(&self, task: u32) -> Option<usize> {
        let started = self
            .messages_of_task(task)
            .find(|(_, message)| message.started());
        if let Some((place, _)) = started {
            return Some(place);
        }
        let mut best: Option<(usize, u32)> = None;
        for (place, message) in self.messages_of_task(task) {
            if best.is_none_or(|(_, least)| message.deadline < least) {
                best = Some((place, message.deadline));
            }
        }
        best.map(|(place, _)| place)
    }

    /// The place of the chosen message of a well formed state, none with nothing pending.
    pub fn chosen_place(&self) -> Option<usize> {
        self.chosen_task().and_then(|task| self.served_place(task))
    }

    /// The message that the chosen task of a well formed state serves, none with nothing pending.
    pub fn chosen_message(&self) -> Option<&Message> {
        self.chosen_place().map(|place| &self.messages[place])
    }

    /// The task and stream of the message at a place.
    fn names(&self, place: usize) -> Choice {
        let message = &self.messages[place];
        Choice {
            task: self.stage_of(message).task,
            stream: message.stream,
        }
    }

    /// "Choose." The state is unchanged; 12 when it is not well formed, with "no task named".
    pub fn choose(&self) -> Result<Option<Choice>, Refusal> {
        if !self.well_formed() {
            return Err(Refusal::NotWellFormed);
        }
        Ok(self.chosen_place().map(|place| self.names(place)))
    }

    /// "Unit(done)." Refusals: "Unit 12, 3, 4."
    pub fn unit(&mut self, done: bool) -> Answer {
        if !self.well_formed() {
            return Answer::Refused(Refusal::NotWellFormed);
        }
        if self.clock == LAST_CLOCK {
            return Answer::Refused(Refusal::LastClock);
        }
        match self.chosen_place() {
            Some(place) => self.run_message(place, done),
            None if done => Answer::Refused(Refusal::NothingPending),
            None => {
                // "the answer is idle and only the clock moves"
                self.move_clock();
                Answer::Idle
            }
        }
    }

    /// "The chosen message gains one used unit and the clock one. If done, it leaves as finished.
    /// If not done and its used units now equal c, it leaves as cut. Otherwise it stays as ran."
    /// "Each answer names task and stream; a leaving one also has the laxity, its deadline minus
    /// the clock after the unit, which is negative when late."
    ///
    /// With stages: "Unit with done: at the last stage it leaves as finished; at an earlier one it
    /// stays in its place, its stage one more, used 0, its deadline as it was, and the answer is
    /// passed with the task that ran and the stream. Without done, at its cost: cut, at any stage,
    /// and it leaves at once."
    fn run_message(&mut self, place: usize, done: bool) -> Answer {
        let Choice { task, stream } = self.names(place);
        let cost = self.stage_of(&self.messages[place]).cost;
        let stages = self.stream_of(&self.messages[place]).stage_count;
        self.messages[place].used += 1;
        self.move_clock();
        let message = self.messages[place];
        let laxity = i64::from(message.deadline) - i64::from(self.clock);
        if done && message.stage + 1 < stages {
            self.messages[place].stage += 1;
            self.messages[place].used = 0;
            Answer::Passed { task, stream }
        } else if done {
            self.remove(place);
            Answer::Finished {
                task,
                stream,
                laxity,
            }
        } else if message.used == cost {
            self.remove(place);
            Answer::Cut {
                task,
                stream,
                laxity,
            }
        } else {
            Answer::Ran { task, stream }
        }
    }

    /// "The order of the rest is kept." "unused places are zero"
    fn remove(&mut self, place: usize) {
        let last = self.pending as usize - 1;
        self.messages.copy_within(place + 1..last + 1, place);
        self.messages[last] = Message::UNUSED;
        self.pending -= 1;
    }
}
