//! The state and the steps post and unit. Every call tests the whole state first.
//!
//! The methods change a state in place. `post` and `unit` do the same by value, as document 01 has it: a state goes in, and
//! the answer comes back with the state after the call.

use super::set::{Door, Set, Stage, Stream};

#[derive(Clone, Copy)]
pub struct Message {
    stream: usize,
    deadline: u32,
    used: u32,
    stage: usize,
}

#[allow(dead_code)] // the runs that are measured have all streams ours
#[derive(Clone, Copy, PartialEq)]
enum Party {
    Ours,
    Theirs,
}

#[derive(Clone, Copy)]
pub struct State {
    set: Set,
    pub clock: u32,
    pub count: usize,
    messages: [Message; 64],
    waits: [u32; 16],
    owners: [Party; 16],
    ours: u32,
    theirs: u32,
}

#[allow(dead_code)] // what a caller would read
#[derive(Clone, Copy)]
pub enum Answer {
    Posted(usize, u32),
    Ran(usize, usize),
    Finished(usize, usize, i64),
    Passed(usize, usize),
    Cut(usize, usize, i64),
    Idle,
    Refused(u8),
}

const LAST_CLOCK: u32 = 4_000_000_000;

impl Message {
    const UNUSED: Message = Message {
        stream: 0,
        deadline: 0,
        used: 0,
        stage: 0,
    };

    fn unused(&self) -> bool {
        self.stream == 0 && self.deadline == 0 && self.used == 0 && self.stage == 0
    }
}

impl State {
    pub fn start(set: &Set) -> State {
        State {
            set: if set.valid() { *set } else { Set::EMPTY },
            clock: 0,
            count: 0,
            messages: [Message::UNUSED; 64],
            waits: [0; 16],
            owners: [Party::Ours; 16],
            ours: 64,
            theirs: 0,
        }
    }

    fn pending(&self) -> &[Message] {
        &self.messages[..self.count]
    }

    fn stream_of(&self, message: &Message) -> &Stream {
        &self.set.streams[message.stream]
    }

    /// The stage that a message in rule is in.
    fn stage_of(&self, message: &Message) -> Stage {
        self.set.streams[message.stream].stages[message.stage]
    }

    /// How many of the pending messages are theirs, where the state is well formed.
    fn tested(&self) -> Option<u32> {
        if !self.set.valid() || self.count > 64 || self.clock > LAST_CLOCK {
            return None;
        }
        let mut before = 0;
        let mut started = [false; 16];
        let mut theirs = 0;
        for message in self.pending() {
            if message.stream >= self.set.count {
                return None;
            }
            let stream = self.stream_of(message);
            if message.stage >= stream.stage_count || message.deadline < stream.deadline {
                return None;
            }
            let stage = stream.stages[message.stage];
            if message.used >= stage.cost {
                return None;
            }
            let posted = message.deadline - stream.deadline;
            if posted > self.clock || posted < before {
                return None;
            }
            before = posted;
            theirs += u32::from(self.owners[message.stream] == Party::Theirs);
            if message.used > 0 {
                if started[stage.task] {
                    return None;
                }
                started[stage.task] = true;
            }
        }
        let kept = self.messages[self.count..].iter().all(Message::unused)
            && (0..16).all(|k| self.waits[k] <= self.set.streams[k].door().most())
            && self.parties_fit(theirs);
        kept.then_some(theirs)
    }

    /// The parties' rules, where they have so many pending.
    fn parties_fit(&self, theirs: u32) -> bool {
        u64::from(self.ours) + u64::from(self.theirs) <= 64
            && self.owners[self.set.count..]
                .iter()
                .all(|owner| *owner == Party::Ours)
            && self.count as u32 - theirs <= self.ours
            && theirs <= self.theirs
    }

    /// Has the owner of a stream its number pending, where they have so many?
    fn full(&self, stream: usize, theirs: u32) -> bool {
        match self.owners[stream] {
            Party::Ours => self.count as u32 - theirs >= self.ours,
            Party::Theirs => theirs >= self.theirs,
        }
    }

    /// Less is left to wait at each door.
    fn wait_less(&mut self) {
        for k in 0..16 {
            if let Door::Spaced(..) = self.set.streams[k].door() {
                self.waits[k] = self.waits[k].saturating_sub(1);
            }
        }
    }

    pub fn post(&mut self, stream: usize) -> Answer {
        let Some(theirs) = self.tested() else {
            return Answer::Refused(12);
        };
        if stream >= self.set.count {
            return Answer::Refused(1);
        }
        let door = self.set.streams[stream].door();
        if door.shut(self.waits[stream]) {
            return Answer::Refused(15);
        }
        if self.full(stream, theirs) {
            return Answer::Refused(2);
        }
        self.waits[stream] = door.after(self.waits[stream]);
        let deadline = self.clock + self.set.streams[stream].deadline;
        self.messages[self.count] = Message {
            stream,
            deadline,
            used: 0,
            stage: 0,
        };
        self.count += 1;
        Answer::Posted(stream, deadline)
    }

    /// The place of the message that is served; something is pending.
    fn place(&self) -> usize {
        let mut least = [u64::MAX; 16];
        for message in self.pending() {
            let task = self.stage_of(message).task;
            least[task] = least[task].min(message.deadline.into());
        }
        let mut task = 0;
        for other in 1..16 {
            if least[other] < least[task] {
                task = other;
            }
        }
        let of_task = |m: &Message| self.stage_of(m).task == task;
        let started = self.pending().iter().position(|m| m.used > 0 && of_task(m));
        let urgent = |m: &Message| u64::from(m.deadline) == least[task] && of_task(m);
        started.unwrap_or_else(|| self.pending().iter().position(urgent).unwrap_or(0))
    }

    fn leave(&mut self, place: usize) {
        self.messages.copy_within(place + 1..self.count, place);
        self.count -= 1;
        self.messages[self.count] = Message::UNUSED;
    }

    pub fn unit(&mut self, done: bool) -> Answer {
        if self.tested().is_none() {
            return Answer::Refused(12);
        }
        if self.clock == LAST_CLOCK {
            return Answer::Refused(3);
        }
        if self.count == 0 {
            if done {
                return Answer::Refused(4);
            }
            self.clock += 1;
            self.wait_less();
            return Answer::Idle;
        }
        let place = self.place();
        let Message {
            stream,
            deadline,
            used,
            stage,
        } = self.messages[place];
        let Stage { task, cost } = self.set.streams[stream].stages[stage];
        self.clock += 1;
        self.wait_less();
        let laxity = i64::from(deadline) - i64::from(self.clock);
        if done && stage + 1 < self.set.streams[stream].stage_count {
            self.messages[place].stage += 1;
            self.messages[place].used = 0;
            return Answer::Passed(task, stream);
        }
        if done {
            self.leave(place);
            return Answer::Finished(task, stream, laxity);
        }
        if used + 1 == cost {
            self.leave(place);
            return Answer::Cut(task, stream, laxity);
        }
        self.messages[place].used += 1;
        Answer::Ran(task, stream)
    }
}

/// An answer, and the state after the call.
#[allow(dead_code)] // what a caller would read
pub struct Outcome {
    pub answer: Answer,
    pub state: State,
}

// Calls of a library: not drawn into the caller's loop.
#[inline(never)]
pub fn post(mut state: State, stream: usize) -> Outcome {
    let answer = state.post(stream);
    Outcome { answer, state }
}

#[inline(never)]
pub fn unit(mut state: State, done: bool) -> Outcome {
    let answer = state.unit(done);
    Outcome { answer, state }
}
