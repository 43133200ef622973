//! Scenes about recordings: the replay of one on the console's state, and making them.

use second::console::{LONGEST_BUFFER, LONGEST_LINE, LONGEST_RECORDING};
use second::recording::recording_of;
use second::state::LAST_CLOCK;
use second::trace::Step;

use super::{around, hex_line, near_limit, Script};
use crate::recordings;
use crate::traces::{self, Lengths};

/// Calls for one scene.
const IN_SCENE: Lengths = Lengths {
    usual: 15,
    long: 120,
    long_one_in: 12,
    full_one_in: 30,
    millions_one_in: 0,
};

/// Recordings of which the first step is an end, 13, 14 or a call.
const SHORT_RECORDINGS: &[&[u8]] = &[
    &[],
    &[0xc0],
    &[0xc1],
    &[0xe0],
    &[0xc0, 0x00],
    &[0x40],
    &[0x80],
    &[0x03],
    &[0x07],
    &[0x3f],
    &[0x00],
    &[0x01, 0xb0],
];

/// What no trace of a line has, or ends with.
const NO_STEPS: &[&[u8]] = &[
    b"p", b"pp", b"pg", b"pA", b"pF", b"pu", b"p/", b"p:", b"p`", b"P0", b"U", b"D", b"x", b"0",
    b"\t", b"\r", b"\0", b"\xff", b" ", b" u", b"u ", b"p 0", b"  ", b"-", b",",
];

impl Script<'_> {
    /// Calls for the state's set.
    fn calls(&mut self) -> Vec<Step> {
        let set = self.state().set;
        traces::steps(self.random, &set, &IN_SCENE, self.console.requests)
    }

    fn say_recording(&mut self, recording: &[u8]) {
        self.say(hex_line("recording", recording));
    }

    /// A recording is replayed to what ends it, or not so far, with other commands between its
    /// steps.
    pub(super) fn replay(&mut self) {
        self.start_something();
        if self.random.one_in(6) {
            let clock = LAST_CLOCK - self.random.between(0, 12);
            self.say(format!("clock {clock}"));
        }
        let calls = self.calls();
        let recording = recordings::any(self.random, &calls);
        self.say_recording(&recording);
        let steps = match self.random.below(4) {
            0 => self.random.index(calls.len() + 1),
            _ => calls.len() + 2,
        };
        for _ in 0..steps {
            self.say("next");
            if self.stopped() {
                break;
            }
            match self.random.below(20) {
                0 => self.say("where"),
                1 => self.say("state"),
                2 => self.step(),
                3 => self.reader_back_or_on(),
                4 => self.say("read 1000"),
                _ => {}
            }
        }
        self.say("where");
        self.say("next");
        self.say("where");
        self.say("state");
    }

    /// Whether the step just asked for made no call.
    fn stopped(&self) -> bool {
        let answer = self.lines.last().map_or("", |line| line.answer.as_str());
        answer.starts_with("end") || answer.starts_with("refused")
    }

    /// Puts the reader a few bits back, or on.
    fn reader_back_or_on(&mut self) {
        let place = self.console.place;
        let bits = 8 * place.byte + place.bit + self.random.index(9);
        let bits = bits.saturating_sub(self.random.index(9));
        self.say(format!("reader {} {}", bits / 8, bits % 8));
    }

    /// The reader at places in and out of a recording.
    pub(super) fn places(&mut self) {
        match self.random.below(4) {
            0 => {}
            1 => {
                let recording = self.random.pick(SHORT_RECORDINGS);
                self.say_recording(recording);
            }
            _ => {
                let calls = self.calls();
                let recording = recordings::any(self.random, &calls);
                self.say_recording(&recording);
            }
        }
        for _ in 0..self.random.between(2, 12) {
            let (byte, bit) = self.place();
            self.say(format!("reader {byte} {bit}"));
            if self.random.one_in(6) {
                self.say("where");
            }
            for _ in 0..self.random.between(1, 3) {
                self.say("next");
            }
            if self.random.one_in(2) {
                self.say("where");
            }
        }
    }

    /// A byte and a bit: most are a place in the recording, or next to one.
    fn place(&mut self) -> (u32, u32) {
        let length = self.console.recording.len() as u32;
        let any_bit = self.random.between(0, 7);
        match self.random.below(12) {
            0..=3 => (self.random.between(0, length.saturating_sub(1)), any_bit),
            4..=5 => (length.saturating_sub(1), any_bit),
            6 => (0, 7),
            7 => (length, 0),
            8 => (length, self.random.between(1, 8)),
            9 => (self.random.between(0, length), self.random.between(7, 9)),
            10 => (length.saturating_add(1), self.random.pick(&[0, 0, 7])),
            _ => (
                around(self.random, &[0, length]),
                around(self.random, &[0, 7]),
            ),
        }
    }

    /// A recording of the greatest length, a byte less or a byte more, or as many bytes as a line
    /// has room for; then steps at its end.
    pub(super) fn recording_about_as_long_as_the_longest(&mut self) {
        let length = self.random.pick(&[
            LONGEST_RECORDING - 1,
            LONGEST_RECORDING,
            LONGEST_RECORDING,
            LONGEST_RECORDING + 1,
            LONGEST_RECORDING + 1,
            (LONGEST_LINE - "recording ".len()) / 2,
        ]);
        let fill = self.random.pick(&[0x55, 0x00, 0xaa, 0xff]);
        let mut recording = vec![fill; length];
        recording[length - 1] = self.random.pick(&[0x57, 0xc0, 0x55, 0x03, 0x56]);
        self.say_recording(&recording);
        self.say("where");
        self.say("next");
        let last = self.console.recording.len().saturating_sub(1);
        let bit = self.random.between(0, 6);
        self.say(format!("reader {last} {bit}"));
        for _ in 0..4 {
            self.say("next");
        }
        self.say("where");
    }

    /// 12 comes before what the bits say: steps on a state with one fault, and again when it has
    /// been put back.
    pub(super) fn replay_on_a_state_with_one_fault(&mut self) {
        match self.random.below(3) {
            0 => self.state_put_together(),
            _ => self.steps(),
        }
        for _ in 0..self.random.between(1, 6) {
            if self.random.one_in(2) {
                let recording = self.random.pick(SHORT_RECORDINGS);
                self.say_recording(recording);
            } else {
                let calls = self.calls();
                let recording = recordings::any(self.random, &calls);
                self.say_recording(&recording);
            }
            if self.random.one_in(3) {
                let (byte, bit) = self.place();
                self.say(format!("reader {byte} {bit}"));
            }
            let before = self.state().clone();
            for put in self.state_fault() {
                self.say(put);
            }
            self.say("next");
            self.say("where");
            if !self.state().well_formed() {
                self.say("state");
                self.put_state_back(&before);
                self.say("next");
                self.say("where");
            }
        }
        self.say("state");
    }

    /// Traces are recorded into buffers of all lengths.
    pub(super) fn recorded(&mut self) {
        for _ in 0..self.random.between(1, 6) {
            let calls = match self.random.below(11) {
                0..=1 => Vec::new(),
                2..=4 => (0..self.random.between(1, 9))
                    .map(|_| self.any_call())
                    .collect(),
                5..=6 => self.calls_about_as_many_as_there_is_room_for(),
                _ => self.calls(),
            };
            let recording = recording_of(&calls);
            let mut trace: Vec<u8> = calls
                .iter()
                .flat_map(|&call| traces::written(call))
                .collect();
            if self.random.one_in(6) {
                self.spoil(&mut trace);
            }
            let length = self.buffer_length(recording.len() as u32);
            let mut line = format!("record {length}").into_bytes();
            if !trace.is_empty() {
                line.push(b' ');
                line.extend(trace);
            }
            self.say(line);
            if self.random.one_in(4) {
                self.say_recording(&recording);
                for _ in 0..self.random.between(1, 9) {
                    self.say("next");
                }
            }
        }
    }

    fn any_call(&mut self) -> Step {
        match self.random.below(3) {
            0 => Step::Post(self.random.between(0, 15)),
            1 => Step::Unit,
            _ => Step::Done,
        }
    }

    /// Posts that fill the longest buffer or are one or two more or less, or about as many units
    /// as a line has room for.
    fn calls_about_as_many_as_there_is_room_for(&mut self) -> Vec<Step> {
        let mut calls = match self.random.below(4) {
            0 => vec![Step::Unit; self.random.between(4_070, 4_090) as usize],
            _ => vec![Step::Post(9); self.random.between(1_363, 1_367) as usize],
        };
        for _ in 0..self.random.pick(&[0, 0, 1, 3]) {
            let place = self.random.index(calls.len());
            calls[place] = self.any_call();
        }
        calls
    }

    /// At, below or above the length that is needed.
    fn buffer_length(&mut self, needed: u32) -> u32 {
        if needed >= LONGEST_BUFFER && self.random.one_in(2) {
            return LONGEST_BUFFER;
        }
        match self.random.below(12) {
            0..=2 => needed - 1,
            3..=5 => needed,
            6..=7 => needed + 1,
            8 => self.random.between(0, needed),
            9 => 0,
            10 => around(self.random, &[LONGEST_BUFFER]),
            _ => near_limit(self.random),
        }
    }

    /// Puts something into a trace that is none of its steps, or cuts it.
    fn spoil(&mut self, trace: &mut Vec<u8>) {
        let place = match self.random.below(2) {
            0 => trace.len(),
            _ => self.random.index(trace.len() + 1),
        };
        if self.random.one_in(5) {
            trace.truncate(place);
        } else {
            let fault = self.random.pick(NO_STEPS);
            trace.splice(place..place, fault.iter().copied());
        }
    }
}
