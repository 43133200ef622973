//! Random traces for a set, and the calls they make.

use second::requests::DOOR;
use second::set::Set;
use second::sheet::VERSION_2;
use second::state::State;
use second::trace::{call, Step};

use crate::random::Random;

const HEX_DIGITS: &[u8; 16] = b"0123456789abcdef";

/// How long the traces are.
pub struct Lengths {
    /// At least about so many steps, up to twice as many.
    pub usual: u32,
    /// The same of a long one.
    pub long: u32,
    /// One trace in so many is a long one.
    pub long_one_in: u64,
    /// One part of a trace in so many fills the table.
    pub full_one_in: u64,
    /// Once there are doors, one trace in so many has millions of units; none with 0.
    pub millions_one_in: u64,
}

/// A trace: steps, with spaces and newlines between them, and now and then a byte that is not
/// allowed.
pub fn make(random: &mut Random, set: &Set, lengths: &Lengths, requests: u32) -> Vec<u8> {
    let steps = steps(random, set, lengths, requests);
    let mut trace = spaced(random, &steps);
    if random.one_in(4) {
        damage(random, &mut trace);
    }
    trace
}

/// The steps of a trace: parts that each post, run or both.
pub fn steps(random: &mut Random, set: &Set, lengths: &Lengths, requests: u32) -> Vec<Step> {
    let at_least = if random.one_in(lengths.long_one_in) {
        lengths.long
    } else {
        lengths.usual
    };
    let wanted = random.index(2 * at_least as usize + 1);
    let mut steps = Steps::new(random, set, requests);
    while steps.steps.len() < wanted {
        steps.part(lengths.full_one_in);
    }
    steps.steps
}

/// A trace of about so many units, most of them idle, with posts where a door opens, a unit before
/// and a unit after.
pub fn over_millions(random: &mut Random, set: &Set, units: u32, requests: u32) -> Vec<u8> {
    let mut steps = Steps::new(random, set, requests);
    while steps.state.clock < units {
        if let Some(place) = steps.with_door() {
            steps.post_at_door(place, u32::MAX);
        }
        let idle = steps.random.pick(&[0, 1, 1_000, 100_000]);
        for _ in 0..idle {
            steps.push(Step::Unit);
        }
    }
    steps.steps.iter().flat_map(|&step| written(step)).collect()
}

/// A step as a trace has it, one or two bytes.
pub fn written(step: Step) -> Vec<u8> {
    match step {
        Step::Post(stream) => vec![b'p', HEX_DIGITS[stream as usize]],
        Step::Unit => vec![b'u'],
        Step::Done => vec![b'd'],
    }
}

/// The steps of a trace while they are being made.
struct Steps<'a> {
    random: &'a mut Random,
    set: &'a Set,
    requests: u32,
    steps: Vec<Step>,
    /// Where the steps lead, once there are doors.
    state: State,
}

impl<'a> Steps<'a> {
    fn new(random: &'a mut Random, set: &'a Set, requests: u32) -> Steps<'a> {
        let (state, _) = State::start(set, requests);
        Steps {
            random,
            set,
            requests,
            steps: Vec::new(),
            state,
        }
    }
}

impl Steps<'_> {
    fn part(&mut self, full_one_in: u64) {
        if self.random.one_in(full_one_in) {
            return self.fill_table();
        }
        if self.requests >= DOOR && self.random.one_in(4) {
            let most_units = self.random.pick(&[20, 20, 60, 400]);
            return self.at_a_door(most_units);
        }
        if self.set.version == VERSION_2 && self.random.one_in(3) {
            return self.through_stages();
        }
        match self.random.below(12) {
            0..=2 => self.burst(),
            3..=4 => self.run(),
            5..=7 => self.mixed(),
            8..=10 => self.urgent_after_start(),
            _ => self.run_until_idle(),
        }
    }

    fn push(&mut self, step: Step) {
        self.steps.push(step);
        if self.requests >= DOOR {
            call(&mut self.state, step);
        }
    }

    fn post(&mut self, stream: usize) {
        self.push(Step::Post(stream as u32));
    }

    /// A unit, with done once in so many times; never with 0.
    fn unit(&mut self, done_one_in: u64) {
        let done = done_one_in > 0 && self.random.one_in(done_one_in);
        self.push(if done { Step::Done } else { Step::Unit });
    }

    /// A stream of the set, seldom one that is not in it.
    fn stream(&mut self) -> usize {
        let count = self.set.count as usize;
        if count == 0 || self.random.one_in(25) {
            self.random.index(16)
        } else {
            self.random.index(count)
        }
    }

    fn burst(&mut self) {
        let same = self.random.one_in(3);
        let mut stream = self.stream();
        for _ in 0..self.random.between(1, 8) {
            self.post(stream);
            if !same {
                stream = self.stream();
            }
        }
    }

    fn run(&mut self) {
        let done_one_in = self.random.pick(&[0, 0, 3, 10]);
        for _ in 0..self.random.between(1, 10) {
            self.unit(done_one_in);
        }
    }

    fn mixed(&mut self) {
        for _ in 0..self.random.between(2, 24) {
            if self.random.one_in(2) {
                let stream = self.stream();
                self.post(stream);
            } else {
                self.unit(6);
            }
        }
    }

    /// More posts than the table has places, with a few units between or after them.
    fn fill_table(&mut self) {
        let one_stream = self.stream();
        let same = self.random.one_in(2);
        let without_door = self.without_door();
        for _ in 0..self.random.between(64, 76) {
            let stream = if same { one_stream } else { self.stream() };
            // A door would keep the table from being full.
            let stream = match without_door {
                Some(other) if !self.random.one_in(8) => other,
                _ => stream,
            };
            self.post(stream);
            if self.random.one_in(12) {
                self.unit(3);
            }
        }
        self.run();
    }

    /// A stream whose door keeps nothing out, once there are doors.
    fn without_door(&mut self) -> Option<usize> {
        if self.requests < DOOR {
            return None;
        }
        let streams = self.set.used_streams();
        let places: Vec<usize> = (0..streams.len())
            .filter(|&place| streams[place].door().is_none())
            .collect();
        (!places.is_empty()).then(|| self.random.pick(&places))
    }

    /// A stream with a door.
    fn with_door(&mut self) -> Option<usize> {
        let streams = self.set.used_streams();
        let places: Vec<usize> = (0..streams.len())
            .filter(|&place| streams[place].door().is_some())
            .collect();
        (!places.is_empty()).then(|| self.random.pick(&places))
    }

    /// Posts of a stream at its door, several times.
    fn at_a_door(&mut self, most_units: u32) {
        let Some(place) = self.with_door() else {
            return self.mixed();
        };
        for _ in 0..self.random.between(1, 5) {
            self.post_at_door(place, most_units);
        }
    }

    /// Posts of a stream when its door opens, a unit before or a unit after, and again at once, if
    /// that takes at most so many units; else at once.
    fn post_at_door(&mut self, place: usize, most_units: u32) {
        let Some(door) = self.set.streams[place].door() else {
            return;
        };
        let units = self.state.waits[place].saturating_sub(door.open_up_to());
        let units = match self.random.below(6) {
            0..=1 => units.saturating_sub(1),
            2..=4 => units,
            _ => units.saturating_add(1),
        };
        if units > most_units {
            return self.post(place);
        }
        for _ in 0..units {
            let done = self.state.pending > 0 && self.random.one_in(4);
            self.push(if done { Step::Done } else { Step::Unit });
        }
        for _ in 0..self.random.pick(&[1, 1, 2, 3]) {
            self.post(place);
        }
    }

    /// A message is started, and then a more urgent one comes, of the same task if there is one.
    fn urgent_after_start(&mut self) {
        let slow = self.stream();
        let streams = &self.set.streams;
        let more_urgent: Vec<usize> = (0..self.set.count as usize)
            .filter(|&place| streams[place].deadline < streams[slow].deadline)
            .collect();
        self.post(slow);
        self.unit(0);
        for stream in more_urgent.into_iter().take(4) {
            self.post(stream);
            if self.random.one_in(3) {
                self.unit(0);
            }
        }
        self.run();
    }

    /// A message goes through its stages: each is done on its first unit, on its last or between,
    /// and at one of them it may be cut. Others may come in between, and then the units are theirs.
    fn through_stages(&mut self) {
        let stream = self.stream();
        let stages = self.set.streams[stream].stages;
        let count = self.set.streams[stream].stage_count as usize;
        let cut_at = self.random.index(count + 2);
        self.post(stream);
        for (place, stage) in stages[..count].iter().enumerate() {
            if self.random.one_in(5) {
                let other = self.stream();
                self.post(other);
            }
            let last = stage.cost.clamp(1, 12) - 1;
            let before = match self.random.below(4) {
                _ if place == cut_at => last,
                0 => 0,
                1 => self.random.between(0, last),
                _ => last,
            };
            for _ in 0..before {
                self.push(Step::Unit);
            }
            if place == cut_at {
                return self.push(Step::Unit);
            }
            self.push(Step::Done);
        }
    }

    fn run_until_idle(&mut self) {
        for _ in 0..self.random.between(10, 40) {
            self.unit(5);
        }
    }
}

/// The steps one after the other, with spaces and newlines between them in one of several styles.
fn spaced(random: &mut Random, steps: &[Step]) -> Vec<u8> {
    let style = random.below(4);
    let mut trace = Vec::new();
    for &step in steps {
        trace.extend(written(step));
        match style {
            0 | 1 => {}
            2 => trace.push(b'\n'),
            _ => {
                for _ in 0..random.below(3) {
                    trace.push(random.pick(b" \n"));
                }
            }
        }
    }
    trace
}

/// What is not a step.
const FAULTS: &[&[u8]] = &[
    b"p", b"p ", b"p\n", b"p 1", b"p\n0", b"pA", b"pF", b"pg", b"pu", b"pp1", b"P0", b"U", b"D",
    b"\t", b"\r", b"\r\n", b"\0", b"\xff", b"0", b"x", b"p\r", b"p\t0", b"p/", b"p:", b"p`", b"-",
    b"#",
];

/// Puts something into the trace that is not a step, at its end or anywhere.
fn damage(random: &mut Random, trace: &mut Vec<u8>) {
    let fault = random.pick(FAULTS);
    let place = if random.one_in(2) {
        trace.len()
    } else {
        random.index(trace.len() + 1)
    };
    trace.splice(place..place, fault.iter().copied());
    if random.one_in(10) {
        let byte = random.byte();
        let place = random.index(trace.len());
        trace[place] = byte;
    }
}

#[cfg(test)]
mod tests {
    use super::*;
    use crate::sets;
    use crate::sheets;
    use second::requests::RENDERED;

    #[test]
    fn every_answer_comes_up() {
        let mut random = Random::new(1);
        let lengths = Lengths {
            usual: 100,
            long: 400,
            long_one_in: 10,
            full_one_in: 20,
            millions_one_in: 0,
        };
        let mut output = String::new();
        for _ in 0..500 {
            let set = sets::small(&mut random, RENDERED);
            let trace = make(&mut random, &set, &lengths, RENDERED);
            output += &second::trace::run(&sheets::of_set(&set), &trace, RENDERED).output;
        }
        for answer in [
            " posted ",
            " ran ",
            " done ",
            " passed ",
            " cut ",
            " idle\n",
            " refused 1\n",
            " refused 2\n",
            " refused 4\n",
            " refused 15\n",
            "\nrefused 9\n",
        ] {
            assert!(output.matches(answer).count() > 50, "{answer}");
        }
        assert!(output.contains(" -"), "a negative laxity");
    }

    #[test]
    fn messages_pass_leave_and_are_cut_at_every_stage() {
        use second::state::{Answer, State};
        use second::trace::call;
        let mut random = Random::new(2);
        let lengths = Lengths {
            usual: 100,
            long: 400,
            long_one_in: 10,
            full_one_in: 20,
            millions_one_in: 0,
        };
        // Of streams of four stages.
        let (mut passed, mut cut, mut finished) = ([0; 4], [0; 4], [0; 4]);
        for _ in 0..1_000 {
            let set = sets::small_of(&mut random, VERSION_2);
            let (mut state, _) = State::start(&set, RENDERED);
            for step in steps(&mut random, &set, &lengths, RENDERED) {
                let chosen = state.chosen_message().copied();
                let answer = call(&mut state, step);
                let Some(message) = chosen else { continue };
                if set.streams[message.stream as usize].stage_count < 4 {
                    continue;
                }
                let stage = message.stage as usize;
                match answer {
                    Answer::Passed { .. } => passed[stage] += 1,
                    Answer::Cut { .. } => cut[stage] += 1,
                    Answer::Finished { .. } => finished[stage] += 1,
                    _ => {}
                }
            }
        }
        assert!(passed[..3].iter().all(|&count| count > 50), "{passed:?}");
        assert!(cut.iter().all(|&count| count > 50), "{cut:?}");
        assert!(finished[3] > 50 && passed[3] == 0, "{finished:?}");
        assert_eq!(finished[..3], [0; 3]);
    }
}
