//! What a party sees of a run (request 8): "Two runs from one start that agree on a party's posts,
//! their clocks and where among them its messages leave give its posts the same answers."
//!
//! A run is kept whole here. The answers to a party's posts are reckoned a second time, from its
//! view and the start alone, by [`answers_by_view`].

use crate::door::keeps_limit;
use crate::parties::{Parties, Party};
use crate::refusal::Refusal;
use crate::set::Set;
use crate::state::{Answer, State};
use crate::trace::{call, Step};

/// A call that was made.
#[derive(Clone, Copy, Debug, PartialEq, Eq)]
pub struct Made {
    /// The call.
    pub step: Step,
    /// The clock before it.
    pub clock: u32,
    /// Its answer.
    pub answer: Answer,
}

/// A run from a start, with all its calls.
#[derive(Clone, Debug, PartialEq, Eq)]
pub struct WholeRun {
    /// The set of its start.
    pub set: Set,
    /// The owners and places of its start.
    pub parties: Parties,
    /// The calls since the start, in order.
    pub calls: Vec<Made>,
    /// Where they led.
    pub state: State,
}

/// What a party sees of a call: "`view p run` is the list of the party's posts, each with its
/// stream and clock, and of its departures, in the order of the calls that made them".
#[derive(Clone, Copy, Debug, PartialEq, Eq)]
pub enum Seen {
    /// A post to a stream of the party, accepted or not.
    Post {
        /// The stream.
        stream: u32,
        /// The clock.
        clock: u32,
    },
    /// A message of the party leaves, as finished or as cut: "where among them its messages leave",
    /// and nothing else of it.
    Leaving,
}

impl WholeRun {
    /// A run of no calls yet, or why there is no such start.
    pub fn start(set: &Set, parties: &Parties, requests: u32) -> Result<WholeRun, Refusal> {
        let (state, result) = State::start_shared(set, parties, requests);
        result.map(|()| WholeRun {
            set: *set,
            parties: *parties,
            calls: Vec::new(),
            state,
        })
    }

    /// Makes a call.
    pub fn call(&mut self, step: Step) -> Answer {
        let clock = self.state.clock;
        let answer = call(&mut self.state, step);
        self.calls.push(Made {
            step,
            clock,
            answer,
        });
        answer
    }

    /// "Each stream has one owner": that of a stream of the set. Any other stream has none, and a
    /// post to it, which is answered with 1, is neither party's.
    pub fn owner(&self, stream: u32) -> Option<Party> {
        (stream < self.set.count).then(|| self.parties.owners[stream as usize])
    }

    /// What a party sees of a call.
    fn seen(&self, party: Party, made: &Made) -> Option<Seen> {
        let is_owner = |stream: u32| self.owner(stream) == Some(party);
        match (made.step, made.answer) {
            (Step::Post(stream), _) if is_owner(stream) => Some(Seen::Post {
                stream,
                clock: made.clock,
            }),
            (_, Answer::Finished { stream, .. } | Answer::Cut { stream, .. })
                if is_owner(stream) =>
            {
                Some(Seen::Leaving)
            }
            _ => None,
        }
    }

    /// A party's view of the run.
    pub fn view(&self, party: Party) -> Vec<Seen> {
        let calls = self.calls.iter();
        calls.filter_map(|made| self.seen(party, made)).collect()
    }

    /// The answers to a party's posts.
    pub fn answers(&self, party: Party) -> Vec<Answer> {
        let is_post = |made: &&Made| matches!(self.seen(party, made), Some(Seen::Post { .. }));
        let posts = self.calls.iter().filter(is_post);
        posts.map(|made| made.answer).collect()
    }

    /// The first of a party's posts, counted from 0, that was answered otherwise than its view
    /// says.
    pub fn post_against_view(&self, party: Party) -> Option<usize> {
        let places = self.parties.places.of(party);
        let by_view = answers_by_view(&self.set, places, &self.view(party));
        first_that_differs(&self.answers(party), &by_view)
    }
}

/// The first of the answers, counted from 0, in which two lists differ.
pub fn first_that_differs(answers: &[Answer], others: &[Answer]) -> Option<usize> {
    let longer = answers.len().max(others.len());
    (0..longer).find(|&place| answers.get(place) != others.get(place))
}

/// The answers to a party's posts, from the set, its own places and its view alone: nothing of the
/// other party's posts, owners or places is in them.
pub fn answers_by_view(set: &Set, places: u32, view: &[Seen]) -> Vec<Answer> {
    let mut accepted: Vec<(u32, u32)> = Vec::new();
    let mut left = 0;
    let mut answers = Vec::new();
    for seen in view {
        match *seen {
            Seen::Leaving => left += 1,
            Seen::Post { stream, clock } => {
                let pending = accepted.len() as u64 - left;
                let answer = answer_by_view(set, places, &accepted, pending, (stream, clock));
                if let Answer::Posted { .. } = answer {
                    accepted.push((stream, clock));
                }
                answers.push(answer);
            }
        }
    }
    answers
}

/// The answer to a post of a party that has posts accepted, each a stream and a clock, of which so
/// many are pending. "Order 12, 1, 15, 2", of which 12 and 1 cannot be here.
fn answer_by_view(
    set: &Set,
    places: u32,
    accepted: &[(u32, u32)],
    pending: u64,
    (stream, clock): (u32, u32),
) -> Answer {
    let of_set = &set.streams[stream as usize];
    let earlier = accepted.iter().filter(|(other, _)| *other == stream);
    let clocks: Vec<u32> = earlier.map(|&(_, clock)| clock).collect();
    if of_set.door().is_some() && !keeps_limit(of_set, &clocks, clock) {
        return Answer::Refused(Refusal::AtTheDoor);
    }
    // "A post is refused as full exactly when its own party has its number pending."
    if pending == u64::from(places) {
        return Answer::Refused(Refusal::Full);
    }
    let deadline = clock + of_set.deadline;
    Answer::Posted { stream, deadline }
}
