//! Scenes about the resumable check.

use second::check::{last_length, Position, Went};
use second::load::{self, Verdict};
use second::set::Set;

use super::{around, near_limit, read_line, Script};
use crate::sets;
use crate::sheets;

/// What is counted of sets whose check is divided among calls.
#[derive(Default)]
pub struct Checked {
    /// The sets by what they are: accepted, late, overload, refused with 7, with 8.
    pub verdicts: [u64; 5],
    pub calls: u64,
    pub lengths: u64,
}

/// How the work is divided among calls.
#[derive(Clone, Copy)]
enum Division {
    /// All in one call, of more than there are or of exactly as many.
    AtOnce,
    /// One length at a time.
    OneByOne,
    /// Any numbers up to one, 0 too.
    UpTo(u32),
    /// A call that leaves one, two or none, and then the rest.
    NearlyAll,
}

impl Script<'_> {
    /// The console's set becomes this one, by its sheet, by pieces or by puts.
    fn take_set(&mut self, set: &Set) {
        match self.random.below(8) {
            0 => self.put_set(set),
            1 => {
                let sheet = sheets::of_set(set);
                self.say(super::hex_line("feed", &sheet));
                self.say("close");
            }
            _ => self.say(read_line(&sheets::of_set(set))),
        }
    }

    /// Lengths that the opening of the position's set names, 0 for one that it stops.
    fn lengths(&self) -> u32 {
        last_length(&self.console.position.set).unwrap_or(0)
    }

    /// How many lengths are left at the position.
    fn left(&self) -> u32 {
        (self.lengths() + 1).saturating_sub(self.console.position.next)
    }

    /// A number for a call: none, one, any, exactly the rest, one more or less, or very many.
    fn number_of_lengths(&mut self) -> u32 {
        let left = self.left();
        match self.random.below(12) {
            0..=1 => 0,
            2..=3 => 1,
            4 => left,
            5 => left.saturating_sub(1),
            6 => left + 1,
            7 => u32::MAX,
            8 => near_limit(self.random),
            _ => self.random.between(0, left / 2 + 3),
        }
    }

    /// A length to resume at: the first, the last, next to one of them or to the first late one, 0,
    /// or any.
    fn length_to_resume_at(&mut self, set: &Set) -> u32 {
        let last = last_length(set).unwrap_or(1);
        let position = Position { set: *set, next: 1 };
        let late = match position.go(last.min(20_000)) {
            Ok(Went::Ended {
                verdict: Verdict::Late { length, .. },
                ..
            }) => length as u32,
            _ => 1,
        };
        match self.random.below(10) {
            0 => 0,
            1 => 1,
            2 => last,
            3 => last + 1,
            4 => late,
            5..=6 => late + self.random.between(1, 3),
            7 => around(self.random, &[1, late, last]),
            8 => near_limit(self.random),
            _ => self.random.between(1, last),
        }
    }

    /// A set that is checked in several calls, with other commands between them.
    pub(super) fn check_in_calls(&mut self) {
        let set = match self.random.below(3) {
            0 => sets::small(self.random, self.console.requests),
            _ => sets::to_check(self.random, self.console.requests),
        };
        self.take_set(&set);
        self.say("open");
        for _ in 0..self.random.between(1, 12) {
            let number = self.number_of_lengths();
            self.say(format!("go {number}"));
            match self.random.below(14) {
                0 => {
                    let other = sets::small(self.random, self.console.requests);
                    self.take_set(&other);
                }
                1 => {
                    let count = self.random.between(0, 17);
                    self.say(format!("streams {count}"));
                }
                2 => self.say("verdict"),
                3 => self.say("open"),
                4 => {
                    let set = *self.set();
                    let next = self.length_to_resume_at(&set);
                    self.say(format!("resume {next}"));
                }
                5 => self.say("read 30"),
                _ => {}
            }
        }
        if self.random.one_in(2) {
            self.say("verdict");
        }
    }

    /// A check that is resumed at every kind of length.
    pub(super) fn resumed(&mut self) {
        let set = match self.random.below(3) {
            0 => sets::small(self.random, self.console.requests),
            _ => sets::to_check(self.random, self.console.requests),
        };
        self.take_set(&set);
        for _ in 0..self.random.between(2, 12) {
            let set = *self.set();
            let next = self.length_to_resume_at(&set);
            self.say(format!("resume {next}"));
            for _ in 0..self.random.between(1, 3) {
                let number = self.number_of_lengths();
                self.say(format!("go {number}"));
            }
        }
    }

    /// Sets that the opening stops, or that one number keeps from it.
    pub(super) fn opened_and_stopped(&mut self) {
        let set = sets::any(self.random, self.console.requests);
        self.take_set(&set);
        for _ in 0..self.random.between(1, 5) {
            let before = *self.set();
            for put in self.set_fault() {
                self.say(put);
            }
            self.say("open");
            if self.random.one_in(2) {
                let next = self.random.pick(&[1, 1, 0, 2, 5]);
                self.say(format!("resume {next}"));
            }
            let number = self.random.pick(&[0, 1, 1, 3, u32::MAX]);
            self.say(format!("go {number}"));
            self.put_back(&before);
        }
        // A set that is stopped, most often.
        let set = loop {
            let set = sets::any(self.random, self.console.requests);
            if last_length(&set).is_err() || self.random.one_in(60) {
                break set;
            }
        };
        self.take_set(&set);
        self.say("open");
        self.say("go 1");
        let next = self.random.pick(&[0, 1, 2]);
        self.say(format!("resume {next}"));
        self.say("go 0");
        self.say("go 1");
    }

    /// One set, its check divided among calls from the opening to the verdict, and the verdict as
    /// document 01 has it. Counts add up, and the two verdicts are one.
    pub(super) fn divided_check(&mut self, checked: &mut Checked) {
        let requests = self.console.requests;
        let set = loop {
            let set = sets::to_check(self.random, requests);
            if sets::worth_judging(self.random, &set) {
                break set;
            }
        };
        self.say(read_line(&sheets::of_set(&set)));
        if self.random.one_in(12) {
            for put in self.set_fault() {
                self.say(put);
            }
        }
        let set = *self.set();
        // Long ones are left out as with other scripts, and a fault may have made one.
        if !sets::worth_judging(self.random, &set) {
            return;
        }
        let expected = load::verdict(&set);
        checked.verdicts[match expected {
            Verdict::Accept => 0,
            Verdict::Late { .. } => 1,
            Verdict::Overload => 2,
            Verdict::Refused(refusal) if refusal.number() == 7 => 3,
            Verdict::Refused(_) => 4,
        }] += 1;
        self.say_at_once("open".to_string());
        if let Ok(last) = last_length(&set) {
            self.divide(last, expected, checked);
        }
        self.say_at_once("verdict".to_string());
        let printed = &self.lines.last().expect("a line").answer;
        assert_eq!(*printed, format!("{expected}\n"));
    }

    /// Calls from the opening to the verdict.
    fn divide(&mut self, last: u32, expected: Verdict, checked: &mut Checked) {
        let division = match self.random.below(8) {
            0 => Division::AtOnce,
            1 if last <= 80 => Division::OneByOne,
            1..=2 => Division::NearlyAll,
            3..=4 => Division::UpTo(last / 2 + 2),
            _ => Division::UpTo(last / 8 + 3),
        };
        let mut tested_before = 0;
        loop {
            let position = self.console.position;
            let number = self.number_by(division, last + 1 - position.next);
            let went = position.go(number).expect("a length that is named");
            self.say_at_once(format!("go {number}"));
            checked.calls += 1;
            if self.random.one_in(12) {
                // "The position keeps its own set."
                self.say("read 1000");
            }
            match went {
                Went::On { tested, next } => {
                    tested_before += tested;
                    assert_eq!(next, 1 + tested_before);
                }
                Went::Ended { tested, verdict } => {
                    assert_eq!(verdict, expected);
                    let all = match expected {
                        Verdict::Late { length, .. } => length as u32,
                        _ => last,
                    };
                    assert_eq!(tested_before + tested, all);
                    checked.lengths += u64::from(all);
                    break;
                }
            }
        }
        let set = self.console.position.set;
        if *self.set() != set {
            self.say_at_once(read_line(&sheets::of_set(&set)));
        }
    }

    /// The number of a call, with so many lengths left.
    fn number_by(&mut self, division: Division, left: u32) -> u32 {
        match division {
            Division::AtOnce => self.random.pick(&[left, left + 1, u32::MAX]),
            Division::OneByOne => 1,
            Division::UpTo(most) => self.random.between(0, most),
            Division::NearlyAll => match self.random.below(4) {
                0 => 0,
                1 => left,
                _ => left.saturating_sub(self.random.between(1, 2)).max(1),
            },
        }
    }
}
