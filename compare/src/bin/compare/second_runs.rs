//! Runs of two parties, and second runs that look the same to one of them.

use second::parties::{Parties, Party};
use second::set::Set;
use second::state::{Answer, Message};
use second::trace::Step;
use second::view::{Seen, WholeRun};

use crate::random::Random;

/// A second run that has not got on after so many units is left.
const MOST_UNITS: u32 = 3_000;

/// Any run from a start: posts of both parties, units with and without done.
pub fn any(random: &mut Random, set: &Set, parties: &Parties, requests: u32) -> WholeRun {
    let mut run = WholeRun::start(set, parties, requests).expect("a start in rule");
    let wanted = random.between(10, 160) as usize;
    while run.calls.len() < wanted {
        let (posts, done_one_in) = match random.below(6) {
            0..=1 => (8, 4),
            2 => (0, 2),
            3 => (0, 20),
            _ => (4, 4),
        };
        for _ in 0..random.between(1, 12) {
            let step = if random.below(8) < posts {
                Step::Post(any_stream(random, set))
            } else if random.one_in(done_one_in) {
                Step::Done
            } else {
                Step::Unit
            };
            run.call(step);
        }
    }
    run
}

/// A stream of the set, seldom one that is not in it.
fn any_stream(random: &mut Random, set: &Set) -> u32 {
    if random.one_in(25) {
        random.between(set.count, 16)
    } else {
        random.between(0, set.count.saturating_sub(1))
    }
}

/// What the other party does in a second run.
#[derive(Clone, Copy)]
struct Ways {
    /// It posts before a call once in so many times, never with 0.
    post_one_in: u64,
    /// So many posts at once, at most.
    burst: u32,
    /// A unit of its messages is called with done once in so many times.
    done_one_in: u64,
}

impl Ways {
    fn any(random: &mut Random) -> Ways {
        Ways {
            post_one_in: random.pick(&[0, 1, 2, 5, 20]),
            burst: random.pick(&[1, 2, 70]),
            done_one_in: random.pick(&[1, 2, 6]),
        }
    }
}

/// A second run from the start of a first one: the party posts as it did there, its messages leave
/// where they did among its posts, and the other party does as it likes. It goes as far as it can
/// be made to: what the party sees of it are the first things that it sees of the first.
pub fn that_looks_the_same(
    random: &mut Random,
    first: &WholeRun,
    party: Party,
    requests: u32,
) -> WholeRun {
    let run = WholeRun::start(&first.set, &first.parties, requests);
    let streams = 0..first.set.count;
    let others = streams.filter(|&stream| first.owner(stream) == Some(party.other()));
    let mut second = Second {
        ways: Ways::any(random),
        random,
        others: others.collect(),
        party,
        view: first.view(party),
        seen: 0,
        run: run.expect("the first one started"),
    };
    while second.get_on() {}
    second.run
}

/// A second run while it is made.
struct Second<'a> {
    random: &'a mut Random,
    ways: Ways,
    /// The other party's streams.
    others: Vec<u32>,
    party: Party,
    /// What the party is to see.
    view: Vec<Seen>,
    /// How much of it has come.
    seen: usize,
    run: WholeRun,
}

impl Second<'_> {
    fn clock(&self) -> u32 {
        self.run.state.clock
    }

    /// A call that leads to what the party is to see next, with calls of the other party before it.
    /// Whether there was one.
    fn get_on(&mut self) -> bool {
        let Some(&next) = self.view.get(self.seen) else {
            return false;
        };
        self.other_party_posts();
        match next {
            Seen::Post { stream, clock } if clock == self.clock() => {
                self.run.call(Step::Post(stream));
                self.seen += 1;
                true
            }
            Seen::Post { .. } => match self.unit_that_none_leaves_at() {
                Some(step) => self.unit(step),
                None => false,
            },
            Seen::Leaving => self.clock() < self.latest_leaving() && self.unit_to_leave(),
        }
    }

    /// Makes a unit. Whether it was one: none of these is refused, or the run could not go on.
    fn unit(&mut self, step: Step) -> bool {
        let answer = self.run.call(step);
        if let Answer::Finished { stream, .. } | Answer::Cut { stream, .. } = answer {
            let is_left = self.run.owner(stream) == Some(self.party);
            self.seen += usize::from(is_left);
        }
        !matches!(answer, Answer::Refused(_))
    }

    fn other_party_posts(&mut self) {
        let one_in = self.ways.post_one_in;
        if self.others.is_empty() || one_in == 0 || !self.random.one_in(one_in) {
            return;
        }
        for _ in 0..self.random.between(1, self.ways.burst) {
            let stream = self.random.pick(&self.others);
            self.run.call(Step::Post(stream));
        }
    }

    /// The clock of the party's next post, which comes behind the leaving.
    fn latest_leaving(&self) -> u32 {
        let rest = &self.view[self.seen..];
        let clock = |seen: &Seen| match *seen {
            Seen::Post { clock, .. } => Some(clock),
            Seen::Leaving => None,
        };
        rest.iter().find_map(clock).unwrap_or(MOST_UNITS)
    }

    /// The message that runs next, and whether it is the party's.
    fn chosen(&self) -> Option<(Message, bool)> {
        let message = *self.run.state.chosen_message()?;
        Some((message, self.run.owner(message.stream) == Some(self.party)))
    }

    fn done_one_in(&mut self, times: u64) -> Step {
        if self.random.one_in(times) {
            Step::Done
        } else {
            Step::Unit
        }
    }

    /// A unit at which no message of the party leaves, if there is one. Where its message would
    /// leave the other party may post one that runs before it.
    fn unit_that_none_leaves_at(&mut self) -> Option<Step> {
        for attempt in 0..=self.others.len() {
            let Some((message, true)) = self.chosen() else {
                return Some(match self.run.state.pending {
                    0 => Step::Unit,
                    _ => self.done_one_in(self.ways.done_one_in),
                });
            };
            let last_unit = message.used + 1 == self.run.state.stage_of(&message).cost;
            let stages = self.run.state.stream_of(&message).stage_count;
            match (last_unit, message.stage + 1 == stages) {
                (false, true) => return Some(Step::Unit),
                (false, false) => return Some(self.done_one_in(6)),
                (true, false) => return Some(Step::Done),
                (true, true) => {
                    let stream = *self.others.get(attempt)?;
                    self.run.call(Step::Post(stream));
                }
            }
        }
        None
    }

    /// A unit that brings the party's next leaving nearer.
    fn unit_to_leave(&mut self) -> bool {
        let step = match self.chosen() {
            Some((_, true)) => self.done_one_in(2),
            Some((_, false)) => self.done_one_in(self.ways.done_one_in),
            None => return false,
        };
        self.unit(step)
    }
}
