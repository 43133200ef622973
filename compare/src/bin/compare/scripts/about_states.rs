//! Scenes about the console's state.

use second::requests::{DOOR, PARTIES, REPLAY, STAGES};
use second::set::{Stage, Stream, GREATEST_TASK, STAGE_PLACES, STREAM_PLACES};
use second::sheet::VERSION_2;
use second::state::{Message, State, LAST_CLOCK, MESSAGE_PLACES};

use super::{around, near_limit, read_line, Script};
use crate::sets;
use crate::sheets;

impl Script<'_> {
    /// A started state with a set that has streams, mostly.
    pub(super) fn start_something(&mut self) {
        let usable = self.state().set.count > 0 && self.state().well_formed();
        if usable && !self.random.one_in(4) {
            if self.random.one_in(2) && self.state().set == *self.set() {
                self.say_start();
            }
            return;
        }
        let set = match self.random.below(3) {
            0 => sets::any(self.random, self.console.requests),
            _ => sets::small(self.random, self.console.requests),
        };
        self.say(read_line(&sheets::of_set(&set)));
        self.say_start();
    }

    /// A stream of the state's set, seldom one that is not in it.
    fn stream_number(&mut self) -> u32 {
        let count = self.state().set.count;
        match self.random.below(25) {
            0 => near_limit(self.random),
            1 => count,
            _ => self.random.between(0, count.saturating_sub(1)),
        }
    }

    /// One call, a step of the replay, or a question about the state.
    pub(super) fn step(&mut self) {
        if self.in_force(REPLAY) && self.random.one_in(9) {
            return self.say("next");
        }
        match self.random.below(16) {
            0..=4 => {
                let stream = self.stream_number();
                self.say(format!("post {stream}"));
            }
            5..=10 => self.say("unit"),
            11..=12 => self.say("done"),
            13 => self.say("choose"),
            14 => self.say("formed"),
            _ => self.say("state"),
        }
    }

    pub(super) fn steps(&mut self) {
        self.start_something();
        for _ in 0..self.random.between(5, 60) {
            self.step();
        }
    }

    pub(super) fn long_run(&mut self) {
        self.start_something();
        for _ in 0..self.random.between(100, 500) {
            match self.random.below(10) {
                0..=2 => {
                    let stream = self.stream_number();
                    self.say(format!("post {stream}"));
                }
                3 => self.say("done"),
                4 => self.say("choose"),
                _ => self.say("unit"),
            }
        }
        self.say("state");
    }

    pub(super) fn full_table(&mut self) {
        self.start_something();
        let same = self.random.one_in(2);
        let mut stream = self.stream_number();
        for _ in 0..self.random.between(60, 68) {
            self.say(format!("post {stream}"));
            if !same {
                stream = self.stream_number();
            }
        }
        self.say("state");
        // 1 comes before 2.
        let count = self.state().set.count;
        self.say(format!("post {count}"));
        for _ in 0..self.random.between(1, 12) {
            let unit = self.random.pick(&["unit", "unit", "done"]);
            self.say(unit);
            self.say("choose");
            let stream = self.stream_number();
            self.say(format!("post {stream}"));
        }
        self.say("state");
    }

    pub(super) fn last_clock(&mut self) {
        self.start_something();
        for _ in 0..self.random.between(0, 6) {
            let stream = self.stream_number();
            self.say(format!("post {stream}"));
        }
        let clock = LAST_CLOCK - self.random.between(0, 4);
        self.say(format!("clock {clock}"));
        for _ in 0..self.random.between(3, 12) {
            self.step();
        }
        self.say("state");
        self.say(format!("clock {}", LAST_CLOCK + 1));
        self.step();
        self.say("formed");
        self.say(format!("clock {LAST_CLOCK}"));
        self.say("formed");
    }

    /// Puts a well formed state together that no short run would reach.
    pub(super) fn state_put_together(&mut self) {
        self.start_something();
        if self.state().set.count == 0 {
            return;
        }
        let (clock, messages) = self.well_formed_messages();
        let mut puts = vec![
            format!("clock {clock}"),
            format!("pending {}", messages.len()),
        ];
        for place in 0..MESSAGE_PLACES {
            let message = messages.get(place).unwrap_or(&Message::UNUSED);
            if self.state().messages[place] != *message {
                puts.push(message_line(place, message));
            }
        }
        self.random.shuffle(&mut puts);
        // Behind the others, as `message` puts stage 0.
        let mut staged: Vec<String> = messages
            .iter()
            .enumerate()
            .filter(|(_, message)| message.stage != 0)
            .map(|(place, message)| staged_line(place, message))
            .collect();
        self.random.shuffle(&mut staged);
        if self.in_force(DOOR) && self.random.one_in(2) {
            staged.extend(self.some_waits());
        }
        for put in puts.into_iter().chain(staged) {
            self.say(put);
        }
        self.fit_room();
        self.say("formed");
        self.say("choose");
        for _ in 0..self.random.between(3, 40) {
            self.step();
        }
    }

    /// A clock and messages that keep the rules with the state's set.
    fn well_formed_messages(&mut self) -> (u32, Vec<Message>) {
        let set = self.state().set;
        let clock = match self.random.below(4) {
            0 => self.random.between(0, 5),
            1 => self.random.between(0, 300),
            2 => self.random.between(0, LAST_CLOCK),
            _ => LAST_CLOCK - self.random.between(0, 3),
        };
        let count = match self.random.below(4) {
            0 => MESSAGE_PLACES,
            1 => self.random.index(MESSAGE_PLACES + 1),
            _ => self.random.index(8),
        };
        let earliest = clock.saturating_sub(self.random.pick(&[0, 3, 50, clock]));
        let mut posted: Vec<u32> = (0..count)
            .map(|_| self.random.between(earliest, clock))
            .collect();
        posted.sort_unstable();
        let mut task_started = [false; GREATEST_TASK as usize + 1];
        let messages = posted
            .into_iter()
            .map(|posted| {
                let number = self.random.index(set.count as usize);
                let stream = &set.streams[number];
                let place = match stream.stage_count {
                    1 => 0,
                    count => self.random.index(count as usize),
                };
                let Stage { task, cost } = stream.stages[place];
                let started = &mut task_started[task as usize];
                let mut used = 0;
                if !*started && cost > 1 && self.random.one_in(4) {
                    *started = true;
                    used = self.random.pick(&[1, cost - 1]);
                }
                Message {
                    stream: number as u32,
                    deadline: posted + stream.deadline,
                    used,
                    stage: place as u32,
                }
            })
            .collect();
        (clock, messages)
    }

    /// A well formed state in which one number is then put at, just below or just above its
    /// limit, so that one clause of the rules is broken or only just kept.
    pub(super) fn state_with_one_fault(&mut self) {
        match self.random.below(3) {
            0 => self.state_put_together(),
            _ => self.steps(),
        }
        for _ in 0..self.random.between(1, 8) {
            let before = self.state().clone();
            for put in self.state_fault() {
                self.say(put);
            }
            self.say("formed");
            for _ in 0..self.random.between(1, 5) {
                self.step();
            }
            if !self.state().well_formed() {
                self.say("choose");
                self.say("state");
                self.put_state_back(&before);
                self.say("formed");
            }
        }
    }

    /// Lines that put one number of the state at, just below or just above its limit.
    pub(super) fn state_fault(&mut self) -> Vec<String> {
        let state = self.state().clone();
        let pending = (state.pending as usize).min(MESSAGE_PLACES);
        let place = self.random.index(pending.max(1));
        let mut message = state.messages[place];
        let stream = *state
            .set
            .streams
            .get(message.stream as usize)
            .unwrap_or(&Stream::UNUSED);
        let stage = message.stage.min(STAGE_PLACES as u32 - 1) as usize;
        let cost = stream.stages[stage].cost;
        let faults = match self.console.requests {
            PARTIES.. => 24,
            DOOR.. => 19,
            STAGES.. => 16,
            _ => 10,
        };
        match self.random.below(faults) {
            19.. => self.party_fault(),
            16.. => vec![self.door_fault()],
            10..=15 => self.staged_fault(place),
            0 => {
                // The clock at its last, and next to where messages were posted.
                let posted = message.deadline.saturating_sub(stream.deadline);
                let clock = around(self.random, &[0, posted, state.clock, LAST_CLOCK]);
                vec![format!("clock {clock}")]
            }
            1 => {
                let limits = [0, state.pending, MESSAGE_PLACES as u32];
                vec![format!("pending {}", around(self.random, &limits))]
            }
            2 => {
                let limits = [0, state.set.count, STREAM_PLACES as u32];
                message.stream = around(self.random, &limits);
                message_lines(place, &message)
            }
            3 => {
                message.used = around(self.random, &[0, cost]);
                message_lines(place, &message)
            }
            4 => {
                let latest = state.clock.saturating_add(stream.deadline);
                message.deadline = around(self.random, &[0, stream.deadline, latest]);
                message_lines(place, &message)
            }
            5..=6 => {
                // Next to where the one before or the one after was posted.
                let other = if self.random.one_in(2) {
                    place.saturating_sub(1)
                } else {
                    (place + 1).min(pending.saturating_sub(1))
                };
                let other = state.messages[other];
                let other_deadline = state
                    .set
                    .streams
                    .get(other.stream as usize)
                    .map_or(0, |stream| stream.deadline);
                let posted = other.deadline.saturating_sub(other_deadline);
                let limit = posted.saturating_add(stream.deadline);
                message.deadline = around(self.random, &[limit]);
                message_lines(place, &message)
            }
            7 => {
                // Perhaps a second started message of its task.
                message.used = 1;
                message_lines(place, &message)
            }
            _ => {
                // An unused place, the first or the last or any.
                let place = match self.random.below(3) {
                    0 => pending.min(MESSAGE_PLACES - 1),
                    1 => MESSAGE_PLACES - 1,
                    _ => self.random.index(MESSAGE_PLACES),
                };
                let mut message = state.messages[place];
                match self.random.below(3) {
                    0 => message.stream = 1,
                    1 => message.deadline = 1,
                    _ => message.used = 1,
                }
                message_lines(place, &message)
            }
        }
    }

    /// The same of the stages of messages.
    fn staged_fault(&mut self, place: usize) -> Vec<String> {
        let state = self.state().clone();
        let pending = (state.pending as usize).min(MESSAGE_PLACES);
        let mut message = state.messages[place];
        let streams = &state.set.streams;
        let count = streams
            .get(message.stream as usize)
            .map_or(0, |stream| stream.stage_count);
        match self.random.below(6) {
            0..=1 => {
                message.stage = around(self.random, &[0, message.stage, count, count]);
                vec![staged_line(place, &message)]
            }
            2 => {
                // Any stage of its stream: perhaps it has used too much for it, or its task has
                // started another message.
                message.stage = self.random.between(0, count.saturating_sub(1));
                vec![staged_line(place, &message)]
            }
            3..=4 => {
                // Started in each stage of its stream, one after the other.
                let mut lines = Vec::new();
                message.used = 1;
                lines.extend(message_lines(place, &message));
                for stage in 0..count.min(STAGE_PLACES as u32) {
                    lines.push(format!("staged {place} {stage}"));
                    lines.push("formed".to_string());
                    lines.push("choose".to_string());
                }
                lines
            }
            _ => {
                // An unused place, the first or the last or any.
                let place = match self.random.below(3) {
                    0 => pending.min(MESSAGE_PLACES - 1),
                    1 => MESSAGE_PLACES - 1,
                    _ => self.random.index(MESSAGE_PLACES),
                };
                let stage = around(self.random, &[1, STAGE_PLACES as u32]);
                vec![format!("staged {place} {stage}")]
            }
        }
    }

    /// A started state with a set of version 2, of at least so many streams, in which some stream
    /// has several stages.
    fn start_with_stages(&mut self, streams: u32) {
        let set = loop {
            let set = match self.random.below(3) {
                0 => sets::any(self.random, self.console.requests),
                _ => sets::small_of(self.random, VERSION_2),
            };
            let has_stages = set.used_streams().iter().any(|s| s.stage_count > 1);
            if set.count >= streams && has_stages {
                break set;
            }
        };
        match self.random.below(4) {
            0 => self.put_set(&set),
            _ => self.say(read_line(&sheets::of_set(&set))),
        }
        self.say_start();
    }

    /// Messages go through their stages, and are done and cut in them.
    pub(super) fn stages_run(&mut self) {
        self.start_with_stages(1);
        if self.random.one_in(6) {
            let clock = LAST_CLOCK - self.random.between(0, 20);
            self.say(format!("clock {clock}"));
        }
        let done = self.random.between(1, 8);
        for _ in 0..self.random.between(10, 120) {
            match self.random.below(20) {
                0..=4 => {
                    let stream = self.stream_number();
                    self.say(format!("post {stream}"));
                }
                5..=15 => {
                    let unit = if self.random.between(1, 10) <= done {
                        "done"
                    } else {
                        "unit"
                    };
                    self.say(unit);
                }
                16..=17 => self.say("choose"),
                18 => self.say("formed"),
                _ => self.say("state"),
            }
        }
        self.say("state");
    }

    /// Two messages, mostly of two streams, in all their stages and out of them, both with a used
    /// unit: not well formed where their stages are of one task.
    pub(super) fn two_started(&mut self) {
        self.start_with_stages(2);
        let set = self.state().set;
        // What was in unused places may have stayed there.
        if set.count == 0 {
            return;
        }
        let clock = self.random.between(0, 300);
        self.say(format!("clock {clock}"));
        self.say("pending 2");
        let first = self.random.between(0, set.count - 1);
        let second = match self.random.below(6) {
            0 => first,
            _ => (first + self.random.between(1, set.count)) % set.count,
        };
        let counts = [first, second].map(|stream| set.streams[stream as usize].stage_count);
        for (place, stream) in [first, second].into_iter().enumerate() {
            let deadline = clock + set.streams[stream as usize].deadline;
            let used = self.random.pick(&[1, 1, 1, 1, 1, 1, 2, 0]);
            self.say(format!("message {place} {stream} {deadline} {used}"));
        }
        self.fit_room();
        for first in 0..=counts[0] {
            self.say(format!("staged 0 {first}"));
            for second in 0..=counts[1] {
                self.say(format!("staged 1 {second}"));
                self.say("formed");
                self.say("choose");
                if self.random.one_in(4) {
                    let before = self.state().clone();
                    self.step();
                    self.say("state");
                    self.put_state_back(&before);
                }
            }
        }
    }

    /// Puts the numbers back that differ from an earlier state of the same set.
    pub(super) fn put_state_back(&mut self, before: &State) {
        let now = self.state().clone();
        if now.clock != before.clock {
            self.say(format!("clock {}", before.clock));
        }
        if now.pending != before.pending {
            self.say(format!("pending {}", before.pending));
        }
        for place in 0..MESSAGE_PLACES {
            let (now, before) = (&now.messages[place], &before.messages[place]);
            if message_line(place, now) != message_line(place, before) {
                self.say(message_line(place, before));
            }
            if self.state().messages[place].stage != before.stage {
                self.say(staged_line(place, before));
            }
        }
        for (place, &wait) in before.waits.iter().enumerate() {
            if self.state().waits[place] != wait {
                self.say(format!("door {place} {wait}"));
            }
        }
        self.put_parties_back(&before.parties);
    }
}

fn message_line(place: usize, message: &Message) -> String {
    format!(
        "message {place} {} {} {}",
        message.stream, message.deadline, message.used
    )
}

/// The line that puts a message, and behind it the one that puts its stage where that is not 0.
fn message_lines(place: usize, message: &Message) -> Vec<String> {
    let mut lines = vec![message_line(place, message)];
    if message.stage != 0 {
        lines.push(staged_line(place, message));
    }
    lines
}

fn staged_line(place: usize, message: &Message) -> String {
    format!("staged {place} {}", message.stage)
}
