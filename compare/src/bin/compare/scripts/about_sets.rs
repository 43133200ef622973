//! Scenes about the console's set.

use second::requests::{JITTER_BOTH_WAYS, STAGES};
use second::set::{
    Set, Stage, Stream, Tuple, GREATEST_COST, GREATEST_CYCLE, GREATEST_DEADLINE, GREATEST_OFFSET,
    GREATEST_TASK, GREATEST_VERSION, STAGE_PLACES, STREAM_PLACES, TUPLE_PLACES,
};

use super::{around, near_limit, read_line, Script};
use crate::sets;
use crate::sheets;

impl Script<'_> {
    /// Puts a set in rule into the console's set, field by field.
    pub(super) fn put_set(&mut self, set: &Set) {
        // Seldom what was in the unused places stays there.
        if !self.random.one_in(20) {
            self.say("read 1000");
        }
        let mut puts = vec![format!("streams {}", set.count)];
        for (place, stream) in set.used_streams().iter().enumerate() {
            puts.push(stream_line(place, stream));
            for (tuple_place, tuple) in stream.used_tuples().iter().enumerate() {
                puts.push(tuple_line(place, tuple_place, *tuple));
            }
        }
        if self.in_force(STAGES) && (set.version != 1 || self.random.one_in(8)) {
            puts.push(format!("version {}", set.version));
        }
        self.random.shuffle(&mut puts);
        for put in puts {
            self.say(put);
        }
        // Behind the others, as `stream` puts the number of stages too.
        let mut puts = Vec::new();
        for (place, stream) in set.used_streams().iter().enumerate() {
            if stream.stage_count > 1 || self.in_force(STAGES) && self.random.one_in(8) {
                puts.push(stages_line(place, stream));
            }
            for (stage_place, stage) in stream.used_stages().iter().enumerate().skip(1) {
                puts.push(stage_line(place, stage_place, *stage));
            }
        }
        self.random.shuffle(&mut puts);
        for put in puts {
            self.say(put);
        }
    }

    pub(super) fn set_put_together(&mut self) {
        let set = sets::any(self.random, self.console.requests);
        self.put_set(&set);
        self.questions_about_set();
        if self.random.one_in(2) {
            self.say_start();
            self.say("state");
        }
    }

    /// A set in rule in which one number is then put at, just below or just above its limit.
    pub(super) fn set_with_one_fault(&mut self) {
        let set = if self.random.one_in(2) {
            sets::small(self.random, self.console.requests)
        } else {
            sets::any(self.random, self.console.requests)
        };
        self.put_set(&set);
        if self.random.one_in(4) {
            self.say("start");
        }
        for _ in 0..self.random.between(1, 4) {
            let before = *self.set();
            for put in self.set_fault() {
                self.say(put);
            }
            self.say("valid");
            self.questions_about_set();
            if self.random.one_in(4) {
                self.say("start");
                self.say("formed");
            }
            self.put_back(&before);
        }
    }

    /// Lines that put one number of the set at, just below or just above its limit.
    pub(super) fn set_fault(&mut self) -> Vec<String> {
        let set = *self.set();
        let count = (set.count as usize).min(STREAM_PLACES);
        // The places of the set, and the first that is not.
        let place = self.random.index((count + 1).min(STREAM_PLACES));
        let mut stream = set.streams[place];
        let tuples = (stream.tuple_count as usize).min(TUPLE_PLACES);
        let faults = if self.in_force(STAGES) { 18 } else { 10 };
        let line = match self.random.below(faults) {
            10.. => return self.stages_fault(place),
            0 => {
                let count = around(self.random, &[0, set.count, STREAM_PLACES as u32]);
                format!("streams {count}")
            }
            1 => {
                stream.stages[0].task = around(self.random, &[0, GREATEST_TASK]);
                return stream_lines(place, &stream);
            }
            2 => {
                stream.stages[0].cost = around(self.random, &[0, 1, GREATEST_COST]);
                return stream_lines(place, &stream);
            }
            3 => {
                stream.deadline = around(self.random, &[0, 1, GREATEST_DEADLINE]);
                return stream_lines(place, &stream);
            }
            4 => {
                let limits = [0, stream.tuple_count, TUPLE_PLACES as u32];
                stream.tuple_count = around(self.random, &limits);
                return stream_lines(place, &stream);
            }
            5 => {
                // The first unused tuple or a later one.
                let tuple_place = self.random.index(TUPLE_PLACES).max(tuples.min(3));
                let tuple = self.random.pick(&[
                    Tuple::Once { offset: 0 },
                    Tuple::Once { offset: 1 },
                    Tuple::Every {
                        cycle: 0,
                        offset: 0,
                    },
                    Tuple::Every {
                        cycle: 1,
                        offset: 0,
                    },
                    Tuple::Every {
                        cycle: 0,
                        offset: 1,
                    },
                ]);
                tuple_line(place, tuple_place, tuple)
            }
            6 => {
                // A number in the last places, which few sets use.
                let mut stream = set.streams[STREAM_PLACES - 1];
                let field = self.random.pick(&[0, 1, 2, 3]);
                let value = around(self.random, &[0, 1]);
                match field {
                    0 => stream.stages[0].task = value,
                    1 => stream.stages[0].cost = value,
                    2 => stream.deadline = value,
                    _ => stream.tuple_count = value,
                }
                stream_line(STREAM_PLACES - 1, &stream)
            }
            7 => {
                let tuple_place = self.random.index(tuples.max(1));
                let cycle = around(self.random, &[0, 1, GREATEST_CYCLE]);
                let offset = stream.tuples[tuple_place].offset();
                tuple_line(place, tuple_place, Tuple::Every { cycle, offset })
            }
            _ => {
                let tuple_place = match self.random.below(2) {
                    0 => self.random.index(tuples.max(1)),
                    _ => tuples.max(1) - 1,
                };
                let mut limits = vec![0, GREATEST_OFFSET, GREATEST_OFFSET];
                limits.extend(stream.tuples[..tuples].iter().map(|tuple| tuple.offset()));
                let offset = around(self.random, &limits);
                let tuple = match stream.tuples[tuple_place].cycle() {
                    Some(cycle) => Tuple::Every { cycle, offset },
                    None => Tuple::Once { offset },
                };
                tuple_line(place, tuple_place, tuple)
            }
        };
        vec![line]
    }

    /// The same of the numbers that came with stages.
    fn stages_fault(&mut self, place: usize) -> Vec<String> {
        let set = *self.set();
        let mut stream = set.streams[place];
        let count = (stream.stage_count as usize).min(STAGE_PLACES);
        // A stage of the stream, and one that is none if there is room.
        let used = self.random.index(count.max(1));
        let unused = self.random.index(STAGE_PLACES).max(count.min(3));
        match self.random.below(11) {
            0..=1 => vec![format!("version {}", self.version())],
            2..=3 => {
                let limits = [0, stream.stage_count, STAGE_PLACES as u32];
                stream.stage_count = around(self.random, &limits);
                vec![stages_line(place, &stream)]
            }
            4 => {
                stream.stages[used].task = around(self.random, &[0, GREATEST_TASK]);
                vec![stage_line(place, used, stream.stages[used])]
            }
            5 => {
                stream.stages[used].cost = around(self.random, &[0, 1, GREATEST_COST]);
                vec![stage_line(place, used, stream.stages[used])]
            }
            6 => {
                let task = self.random.pick(&[0, 0, 1]);
                let cost = around(self.random, &[0, 1]);
                vec![stage_line(place, unused, Stage { task, cost })]
            }
            7 => {
                // One stage more, which only version 2 may have.
                let task = self.random.between(0, GREATEST_TASK);
                let cost = self.random.between(1, 6);
                stream.stage_count = count as u32 + 1;
                let mut puts = vec![
                    stage_line(place, count.min(3), Stage { task, cost }),
                    stages_line(place, &stream),
                ];
                self.random.shuffle(&mut puts);
                puts
            }
            // The number of stages becomes 1, and the others stay.
            8 => vec![stream_line(place, &stream)],
            9 => {
                // The other version, with all streams as they are.
                let other = GREATEST_VERSION + 1 - set.version.min(GREATEST_VERSION);
                vec![format!("version {other}")]
            }
            _ => {
                // A number in the last places, which few sets use.
                let place = STREAM_PLACES - 1;
                let value = around(self.random, &[0, 1]);
                let mut stage = set.streams[place].stages[unused];
                match self.random.below(3) {
                    0 => return vec![format!("stages {place} {value}")],
                    1 => stage.task = value,
                    _ => stage.cost = value,
                }
                vec![stage_line(place, unused, stage)]
            }
        }
    }

    /// A version, mostly one that is none.
    fn version(&mut self) -> u32 {
        match self.random.below(4) {
            0 => self.random.between(0, 16),
            1 => self
                .random
                .pick(&[0, 3, 17, 18, 257, 65_537, 1 << 31, u32::MAX]),
            _ => around(self.random, &[1, GREATEST_VERSION]),
        }
    }

    /// Versions, numbers of stages and stage places of all kinds, with questions between them.
    pub(super) fn any_stages(&mut self) {
        let set = sets::small(self.random, self.console.requests);
        self.put_set(&set);
        for _ in 0..self.random.between(3, 15) {
            let places = set.count.clamp(1, STREAM_PLACES as u32 - 1);
            let place = self.random.between(0, places);
            match self.random.below(5) {
                0 => {
                    let version = self.version();
                    self.say(format!("version {version}"));
                }
                1 => {
                    let count = match self.random.below(4) {
                        0 => near_limit(self.random),
                        _ => self.random.between(0, 5),
                    };
                    self.say(format!("stages {place} {count}"));
                }
                2..=3 => {
                    let stage_place = self.random.index(STAGE_PLACES);
                    let task = match self.random.below(4) {
                        0 => near_limit(self.random),
                        _ => self.random.between(0, 3),
                    };
                    let cost = match self.random.below(4) {
                        0 => near_limit(self.random),
                        _ => self.random.between(0, 5),
                    };
                    self.say(stage_line(
                        place as usize,
                        stage_place,
                        Stage { task, cost },
                    ));
                }
                _ => {
                    let stream = self.set().streams[place as usize];
                    self.say(stream_line(place as usize, &stream));
                }
            }
            match self.random.below(3) {
                0 => self.say("valid"),
                1 => self.questions_about_set(),
                _ => {
                    self.say("start");
                    self.say("post 0");
                    self.say("unit");
                }
            }
        }
        if self.random.one_in(2) {
            self.say("read 1000");
        }
        self.say_start();
    }

    /// Puts the numbers back that differ from an earlier set.
    pub(super) fn put_back(&mut self, before: &Set) {
        let now = *self.set();
        if now.count != before.count {
            self.say(format!("streams {}", before.count));
        }
        if now.version != before.version {
            self.say(format!("version {}", before.version));
        }
        for (place, before) in before.streams.iter().enumerate() {
            let stream = now.streams[place];
            if stream_line(place, &stream) != stream_line(place, before) {
                self.say(stream_line(place, before));
            }
            if self.set().streams[place].stage_count != before.stage_count {
                self.say(stages_line(place, before));
            }
            for stage_place in 1..STAGE_PLACES {
                if stream.stages[stage_place] != before.stages[stage_place] {
                    self.say(stage_line(place, stage_place, before.stages[stage_place]));
                }
            }
            for tuple_place in 0..TUPLE_PLACES {
                if stream.tuples[tuple_place] != before.tuples[tuple_place] {
                    self.say(tuple_line(place, tuple_place, before.tuples[tuple_place]));
                }
            }
        }
    }

    pub(super) fn sheet_read(&mut self) {
        for _ in 0..self.random.between(1, 6) {
            let requests = self.console.requests;
            let set = sets::any(self.random, requests);
            let sheet = if self.random.one_in(3) {
                sheets::of_set(&set)
            } else {
                sheets::damaged(self.random, &set, requests)
            };
            self.say(read_line(&sheet));
            match self.random.below(4) {
                0 => self.say("valid"),
                1 => self.say("verdict"),
                2 => self.say(format!("write {}", sheet.len().min(1_024))),
                _ => self.questions_about_set(),
            }
        }
        if self.random.one_in(3) {
            self.say_start();
        }
    }

    /// Some of the questions that do not change the set.
    pub(super) fn questions_about_set(&mut self) {
        for _ in 0..self.random.between(1, 6) {
            match self.random.below(9) {
                0 => self.say("valid"),
                1..=3 => self.say("verdict"),
                4..=5 => {
                    let length = self.length();
                    self.say(format!("demand {length}"));
                }
                6..=7 => {
                    let count = self.set().count.min(STREAM_PLACES as u32);
                    let stream = match self.random.below(8) {
                        0 => count,
                        1 => near_limit(self.random),
                        _ => self.random.between(0, count.saturating_sub(1)),
                    };
                    let length = self.length();
                    self.say(format!("limit {stream} {length}"));
                }
                _ => {
                    let sheet = self.sheet_length();
                    let length = match self.random.below(8) {
                        0 => 0,
                        1 => 1_024,
                        2 => 1_025,
                        3 => self.random.between(0, 530),
                        4 => sheet.saturating_sub(1),
                        5 => sheet + 1,
                        _ => sheet,
                    };
                    self.say(format!("write {length}"));
                }
            }
        }
    }

    fn sheet_length(&self) -> u32 {
        if self.set().valid() {
            sheets::of_set(self.set()).len() as u32
        } else {
            2
        }
    }

    /// A length to ask about: next to where some stream's limit or the demand rises, or any.
    fn length(&mut self) -> u32 {
        let set = *self.set();
        if self.random.one_in(4) {
            return near_limit(self.random);
        }
        let stream = set.streams[self
            .random
            .index((set.count as usize).clamp(1, STREAM_PLACES))];
        let tuple = stream.tuples[self.random.index(TUPLE_PLACES)];
        let cycles = self.random.between(0, 5);
        let deadline = self.random.pick(&[0, stream.deadline]);
        let rise = u64::from(tuple.offset())
            + u64::from(deadline)
            + u64::from(cycles) * u64::from(tuple.cycle().unwrap_or(0));
        let length = (rise + 1).saturating_sub(self.random.below(3));
        u32::try_from(length).unwrap_or(u32::MAX)
    }

    pub(super) fn jittered_cycles(&mut self) {
        if self.in_force(JITTER_BOTH_WAYS) {
            self.jitter_both_ways();
        } else {
            self.jitter_one_way();
        }
    }

    /// Cycles and jitters at the edges of document 01's rule.
    fn jitter_one_way(&mut self) {
        for _ in 0..self.random.between(1, 6) {
            let cycle = match self.random.below(3) {
                0 => self.random.between(0, GREATEST_CYCLE + 1),
                1 => around(
                    self.random,
                    &[0, 1, GREATEST_OFFSET, 2 * GREATEST_OFFSET, GREATEST_CYCLE],
                ),
                _ => near_limit(self.random),
            };
            let limits = [0, cycle, cycle.saturating_sub(GREATEST_OFFSET)];
            let jitter = match self.random.below(4) {
                0 => self.random.between(0, cycle),
                _ => around(self.random, &limits),
            };
            self.say(format!("jitter {cycle} {jitter}"));
        }
    }

    /// Cycles and jitters at the edges of request 2's rule.
    fn jitter_both_ways(&mut self) {
        for _ in 0..self.random.between(4, 20) {
            let cycle = self.cycle_to_jitter();
            let jitter = self.jitter_of(cycle);
            self.say(format!("jitter {cycle} {jitter}"));
        }
    }

    /// A cycle, even or odd: any, or at one of the edges of the rule for jittered cycles.
    fn cycle_to_jitter(&mut self) -> u32 {
        match self.random.below(6) {
            0..=1 => self.random.between(0, GREATEST_CYCLE + 1),
            2 => self.random.between(0, 30),
            3 => self.random.between(GREATEST_CYCLE - 1, GREATEST_CYCLE + 1),
            4 => around(
                self.random,
                &[0, 1, GREATEST_OFFSET, 2 * GREATEST_OFFSET, GREATEST_CYCLE],
            ),
            _ => near_limit(self.random),
        }
    }

    /// A jitter in rule for this cycle, or at, just below or just above an edge: where 2j is z,
    /// where z - 2j is the greatest offset, where j is z or z - j is that offset (the edges there
    /// would be if lateness alone were counted), and where 2j has more than 32 bits, and its last
    /// 32 would be in rule.
    fn jitter_of(&mut self, cycle: u32) -> u32 {
        const HALF: u32 = 1 << 31;
        let above_offset = cycle.saturating_sub(GREATEST_OFFSET);
        match self.random.below(10) {
            0..=1 => self.random.between(above_offset / 2, cycle / 2),
            2..=3 => around(self.random, &[cycle / 2]),
            4..=6 => around(self.random, &[above_offset / 2, above_offset.div_ceil(2)]),
            7 => around(self.random, &[0, cycle, above_offset]),
            8 => HALF.saturating_add(around(self.random, &[0, above_offset / 2, cycle / 2])),
            _ => around(self.random, &[HALF, u32::MAX]),
        }
    }
}

fn stream_line(place: usize, stream: &Stream) -> String {
    let Stage { task, cost } = stream.stages[0];
    let Stream {
        deadline,
        tuple_count,
        ..
    } = stream;
    format!("stream {place} {task} {cost} {deadline} {tuple_count}")
}

/// The line that puts a stream, and behind it the one that puts its number of stages where that is
/// not what the first leaves.
fn stream_lines(place: usize, stream: &Stream) -> Vec<String> {
    let mut lines = vec![stream_line(place, stream)];
    if stream.stage_count > 1 {
        lines.push(stages_line(place, stream));
    }
    lines
}

fn stages_line(place: usize, stream: &Stream) -> String {
    format!("stages {place} {}", stream.stage_count)
}

fn stage_line(place: usize, stage_place: usize, stage: Stage) -> String {
    format!("stage {place} {stage_place} {} {}", stage.task, stage.cost)
}

fn tuple_line(place: usize, tuple_place: usize, tuple: Tuple) -> String {
    match tuple {
        Tuple::Once { offset } => format!("once {place} {tuple_place} {offset}"),
        Tuple::Every { cycle, offset } => format!("every {place} {tuple_place} {cycle} {offset}"),
    }
}
