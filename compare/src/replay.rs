//! Replay of a recording (request 1): a step of it, the office reader, and the replay program.

use crate::parties::Parties;
use crate::recording::{said_at, Place, Said};
use crate::refusal::Refusal;
use crate::sheet;
use crate::state::{Answer, State};
use crate::trace::{call, line, Run};

/// What a step of a replay answers.
#[derive(Clone, Copy, Debug, PartialEq, Eq)]
pub enum Replayed {
    /// "Any other kind makes the call, and the answer is the call's own, refusals of the call
    /// (1, 2, 3, 4) included".
    Called(Answer),
    /// The recording's end.
    End,
    /// 12, 13 or 14; no call was made.
    Refused(Refusal),
}

impl Replayed {
    /// "Prints the line of that step as `post`, `unit` and `done` do, or `end`, or `refused 12`,
    /// `refused 13`, `refused 14` with no clock."
    pub fn line(&self, clock_before: u32) -> String {
        match self {
            Replayed::Called(answer) => line(clock_before, answer),
            Replayed::End => "end".to_string(),
            Replayed::Refused(refusal) => refusal.to_string(),
        }
    }
}

/// Where a replay starts. "The start: bytes of a sheet, and reading's refusals 5, 6, 7, 10 as they
/// are." "Replay starts with the same owners and places", and with 16 where they are too many. A
/// refusal comes with the start of the empty set.
pub fn start(sheet: &[u8], parties: &Parties, requests: u32) -> (State, Result<(), Refusal>) {
    match sheet::read(sheet, requests) {
        Ok(set) => State::start_shared(&set, parties, requests),
        Err(refusal) => (State::empty(requests), Err(refusal)),
    }
}

/// One step of a replay of a recording, at a place.
///
/// "Order: 12 (the state is not well formed, or the reader's place is not in its recording [...]),
/// then what the bits say". "End, 12, 13 and 14 leave reader and state as they are: asked again,
/// they answer the same. Any other kind makes the call, and the answer is the call's own, refusals
/// of the call (1, 2, 3, 4) included; the reader stands behind it."
pub fn step(state: &mut State, recording: &[u8], place: &mut Place) -> Replayed {
    if !state.well_formed() || !place.is_in(recording) {
        return Replayed::Refused(Refusal::NotWellFormed);
    }
    match said_at(recording, *place) {
        Ok(Said::Call { call: said, behind }) => {
            *place = behind;
            Replayed::Called(call(state, said))
        }
        Ok(Said::End) => Replayed::End,
        Err(refusal) => Replayed::Refused(refusal),
    }
}

/// "The office reader keeps its reading position together with the lent recording, so that the
/// viewer can ask for one step at a time."
#[derive(Clone, Copy, Debug, PartialEq, Eq)]
pub struct Reader<'a> {
    recording: &'a [u8],
    place: Place,
}

impl<'a> Reader<'a> {
    /// A reader at the start of a recording.
    pub fn new(recording: &'a [u8]) -> Reader<'a> {
        Reader {
            recording,
            place: Place::START,
        }
    }

    /// Where it stands.
    pub fn place(&self) -> Place {
        self.place
    }

    /// "A step takes a state and a reader and gives the answer, the state and the reader."
    pub fn next(&mut self, state: &mut State) -> Replayed {
        step(state, self.recording, &mut self.place)
    }
}

/// Replays a recording. "The replay starts from a sheet, makes the same calls and gives, for each,
/// the answer the cab gave". It prints "the lines of the trace program, the verdict first, then
/// `end` or `refused 13` or `refused 14`"; "all steps before them stand". "The start: bytes of a
/// sheet, and reading's refusals 5, 6, 7, 10 as they are": as with a trace, "a refused sheet
/// prints only that line", and all streams are ours, with 64 places.
pub fn run(sheet: &[u8], recording: &[u8], requests: u32) -> Run {
    let (mut run, mut state) = match Run::begin(sheet, requests) {
        (run, Some(state)) => (run, state),
        (run, None) => return run,
    };
    let mut reader = Reader::new(recording);
    loop {
        let clock_before = state.clock;
        let replayed = reader.next(&mut state);
        run.print(replayed.line(clock_before));
        match replayed {
            Replayed::Called(_) => run.calls += 1,
            Replayed::End | Replayed::Refused(_) => return run,
        }
    }
}
