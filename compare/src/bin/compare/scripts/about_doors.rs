//! Scenes about doors: posts that come too early, and waits put by hand.

use second::door::Door;
use second::set::STREAM_PLACES;
use second::state::{LAST_CLOCK, MESSAGE_PLACES};

use super::{around, near_limit, read_line, Script};
use crate::sets;
use crate::sheets;

impl Script<'_> {
    /// A started state with a set in which some streams have doors.
    fn start_with_doors(&mut self) {
        let requests = self.console.requests;
        let set = match self.random.below(8) {
            0 => sets::any(self.random, requests),
            1 => sets::with_long_doors(self.random, requests),
            _ => sets::small_with_doors(self.random, requests),
        };
        match self.random.below(5) {
            0 => self.put_set(&set),
            _ => self.say(read_line(&sheets::of_set(&set))),
        }
        self.say_start();
    }

    /// The places of the state's set with a door, and their doors.
    pub(super) fn doors(&self) -> Vec<(usize, Door)> {
        let streams = self.state().set.used_streams();
        let places = streams.iter().enumerate();
        places
            .filter_map(|(place, stream)| Some((place, stream.door()?)))
            .collect()
    }

    /// Posts when doors open, a unit before and a unit after, and again at once.
    pub(super) fn doors_run(&mut self) {
        self.start_with_doors();
        match self.random.below(8) {
            0 => {
                // No wait is a reading of the clock.
                let clock = near_limit(self.random).min(LAST_CLOCK);
                self.say(format!("clock {clock}"));
            }
            1 => {
                let clock = LAST_CLOCK - self.random.between(0, 40);
                self.say(format!("clock {clock}"));
            }
            _ => {}
        }
        let doors = self.doors();
        if doors.is_empty() {
            return self.steps();
        }
        for _ in 0..self.random.between(4, 16) {
            let (place, door) = self.random.pick(&doors);
            self.units_until(place, door);
            for _ in 0..self.random.pick(&[1, 1, 2, 3]) {
                self.say(format!("post {place}"));
            }
            match self.random.below(8) {
                0 => self.say("state"),
                1 => self.say("formed"),
                2 => self.step(),
                3 => {
                    // The clock goes on by itself; the waits do not.
                    let clock = self.state().clock;
                    let on = clock.saturating_add(self.random.pick(&[1, 50, 5_000_000]));
                    self.say(format!("clock {}", on.min(LAST_CLOCK)));
                }
                _ => {}
            }
        }
        self.say("state");
    }

    /// Units until a door opens, or one less or more. Where they would be many, the wait is put
    /// near that moment.
    pub(super) fn units_until(&mut self, place: usize, door: Door) {
        let shut = |wait: u32| wait.saturating_sub(door.open_up_to());
        if shut(self.state().waits[place]) > 40 {
            if self.random.one_in(4) {
                return;
            }
            let wait = door.open_up_to() + self.random.between(0, 4);
            self.say(format!("door {place} {wait}"));
        }
        let units = shut(self.state().waits[place]);
        let units = match self.random.below(6) {
            0..=1 => units.saturating_sub(1),
            2..=4 => units,
            _ => units + 1,
        };
        for _ in 0..units {
            let unit = match self.state().pending {
                0 => "unit",
                _ => self.random.pick(&["unit", "unit", "done"]),
            };
            self.say(unit);
        }
    }

    /// A line that puts the wait of a stream place: at, just below or just above what it may be or
    /// what opens its door, on streams without a door and in unused places too.
    pub(super) fn door_fault(&mut self) -> String {
        let doors = self.doors();
        let count = self.state().set.count as usize;
        let place = match self.random.below(6) {
            0 => self.random.index(STREAM_PLACES),
            1 => count.min(STREAM_PLACES - 1),
            2 => STREAM_PLACES - 1,
            _ if doors.is_empty() => self.random.index(STREAM_PLACES),
            _ => self.random.pick(&doors).0,
        };
        let door = doors.iter().find(|(other, _)| *other == place);
        let limits = match door {
            None => vec![0, 0, 1],
            Some((_, door)) => {
                let open = door.open_up_to();
                let greatest = door.greatest_wait();
                vec![0, open, open, door.added(), greatest, greatest]
            }
        };
        format!("door {place} {}", around(self.random, &limits))
    }

    /// Waits put by hand, each with calls behind it, and then put back where they broke the rules.
    pub(super) fn waits_by_hand(&mut self) {
        self.start_with_doors();
        for _ in 0..self.random.between(0, 6) {
            self.step();
        }
        for _ in 0..self.random.between(2, 10) {
            let before = self.state().clone();
            let put = self.door_fault();
            let place = put.split(' ').nth(1).unwrap_or("0").to_string();
            self.say(&put);
            self.say("formed");
            self.say(format!("post {place}"));
            if self.random.one_in(2) {
                self.say("unit");
                self.say(format!("post {place}"));
            }
            match self.random.below(5) {
                0 => self.say("choose"),
                1 => self.say("done"),
                2 => self.say("next"),
                _ => self.say("state"),
            }
            if !self.state().well_formed() {
                self.put_state_back(&before);
                self.say("formed");
            }
        }
        self.say("state");
    }

    /// With the table full or nearly so: 15 before 2, and a post that is refused by 2 leaves the
    /// wait as it was.
    pub(super) fn full_table_at_the_door(&mut self) {
        self.start_with_doors();
        let doors = self.doors();
        let count = self.state().set.count;
        if count == 0 || doors.is_empty() {
            return;
        }
        // Messages that no post brought, all posted at the present clock and not started.
        let clock = self.random.between(0, 100);
        let pending = (MESSAGE_PLACES - self.random.index(3)) as u32;
        self.say(format!("clock {clock}"));
        self.say(format!("pending {pending}"));
        for place in 0..pending {
            let stream = self.random.between(0, count - 1);
            let deadline = clock + self.state().set.streams[stream as usize].deadline;
            self.say(format!("message {place} {stream} {deadline} 0"));
        }
        self.fit_room();
        self.say("formed");
        for _ in 0..self.random.between(4, 14) {
            let (place, door) = self.random.pick(&doors);
            match self.random.below(6) {
                0 => self.say("unit"),
                1 => self.say("done"),
                2 => {
                    let wait = around(self.random, &[door.open_up_to()]);
                    let wait = wait.min(door.greatest_wait());
                    self.say(format!("door {place} {wait}"));
                }
                3 => self.say(format!("post {count}")),
                _ => {}
            }
            self.say(format!("post {place}"));
        }
        self.say("state");
    }

    /// Lines that put waits that may be there, for some of the streams.
    pub(super) fn some_waits(&mut self) -> Vec<String> {
        let mut lines = Vec::new();
        for (place, door) in self.doors() {
            if self.random.one_in(2) {
                let wait = match self.random.below(3) {
                    0 => door.open_up_to(),
                    1 => door.greatest_wait(),
                    _ => self.random.between(0, door.greatest_wait()),
                };
                lines.push(format!("door {place} {wait}"));
            }
        }
        lines
    }
}
