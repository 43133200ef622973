//! "The trace program."

use std::fmt::Write;

use crate::load;
use crate::refusal::Refusal;
use crate::sheet;
use crate::state::{Answer, State};

/// One step of a trace.
#[derive(Clone, Copy, Debug, PartialEq, Eq)]
pub enum Step {
    /// "p and one lower-case hex digit posts"
    Post(u32),
    /// "u is a unit"
    Unit,
    /// "d a unit with done"
    Done,
}

/// What a trace printed.
#[derive(Clone, Debug, PartialEq, Eq)]
pub struct Run {
    /// The whole of what is printed.
    pub output: String,
    /// How many steps were taken, those with a refusal for an answer included.
    pub calls: u64,
    /// Whether the sheet was refused.
    pub sheet_refused: bool,
}

/// Runs a trace: the verdict, then the steps. "the trace program gives us all streams and 64
/// places".
pub fn run(sheet: &[u8], trace: &[u8], requests: u32) -> Run {
    let (mut run, mut state) = match Run::begin(sheet, requests) {
        (run, Some(state)) => (run, state),
        (run, None) => return run,
    };
    let mut steps = Steps { rest: trace };
    loop {
        match steps.next_step() {
            Ok(Some(step)) => {
                run.print(take(&mut state, step));
                run.calls += 1;
            }
            Ok(None) => return run,
            // "prints the line `refused 9`, with no clock, and stops"
            Err(refusal) => {
                run.print(refusal);
                return run;
            }
        }
    }
}

impl Run {
    /// "The first line is the verdict (accept, late I demand, overload, refused N); a refused
    /// sheet prints only that line, and after any verdict on a sheet that was read, 8 included,
    /// the steps follow": the run so far, and the start of the set if one was read.
    pub(crate) fn begin(sheet: &[u8], requests: u32) -> (Run, Option<State>) {
        let mut run = Run {
            output: String::new(),
            calls: 0,
            sheet_refused: false,
        };
        match sheet::read(sheet, requests) {
            Ok(set) => {
                run.print(load::verdict(&set));
                let (state, _) = State::start(&set, requests);
                (run, Some(state))
            }
            Err(refusal) => {
                run.print(refusal);
                run.sheet_refused = true;
                (run, None)
            }
        }
    }

    pub(crate) fn print(&mut self, line: impl std::fmt::Display) {
        writeln!(self.output, "{line}").expect("a string takes all that is written to it");
    }
}

/// Makes the call of a step.
pub fn call(state: &mut State, step: Step) -> Answer {
    match step {
        Step::Post(stream) => state.post(stream),
        Step::Unit => state.unit(false),
        Step::Done => state.unit(true),
    }
}

/// "Each step prints the clock before it and its answer".
pub fn take(state: &mut State, step: Step) -> String {
    let clock_before = state.clock;
    let answer = call(state, step);
    line(clock_before, &answer)
}

/// The line of a step: "the clock before it and its answer".
pub(crate) fn line(clock_before: u32, answer: &Answer) -> String {
    format!("{clock_before} {answer}")
}

/// All the steps of a trace; 9 for "Any other byte, or p without its digit".
pub fn steps(trace: &[u8]) -> Result<Vec<Step>, Refusal> {
    let mut rest = Steps { rest: trace };
    let mut steps = Vec::new();
    while let Some(step) = rest.next_step()? {
        steps.push(step);
    }
    Ok(steps)
}

/// The part of a trace that is still to be read.
struct Steps<'a> {
    rest: &'a [u8],
}

impl Steps<'_> {
    fn next_byte(&mut self) -> Option<u8> {
        let (&first, rest) = self.rest.split_first()?;
        self.rest = rest;
        Some(first)
    }

    /// The next step, none at the end. "Spaces and newlines between steps are skipped. Any other
    /// byte, or p without its digit, prints the line `refused 9`".
    fn next_step(&mut self) -> Result<Option<Step>, Refusal> {
        loop {
            match self.next_byte() {
                None => return Ok(None),
                Some(b' ' | b'\n') => {}
                Some(b'u') => return Ok(Some(Step::Unit)),
                Some(b'd') => return Ok(Some(Step::Done)),
                Some(b'p') => return self.stream_digit().map(|s| Some(Step::Post(s))),
                Some(_) => return Err(Refusal::BadTraceByte),
            }
        }
    }

    /// The byte after p: "one lower-case hex digit".
    fn stream_digit(&mut self) -> Result<u32, Refusal> {
        match self.next_byte() {
            Some(digit @ b'0'..=b'9') => Ok(u32::from(digit - b'0')),
            Some(digit @ b'a'..=b'f') => Ok(u32::from(digit - b'a') + 10),
            _ => Err(Refusal::BadTraceByte),
        }
    }
}
