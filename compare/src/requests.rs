//! Which requests of document 02 are in force.
//!
//! What depends on it takes the number from its caller; programs give it [`IN_FORCE`].

use std::io;

/// The requests of document 02 that are in force: all up to this number. A request's landing
/// raises it.
pub const IN_FORCE: u32 = 8;

/// The last request that is rendered here. Those above [`IN_FORCE`] wait for their landing.
pub const RENDERED: u32 = PARTIES;

/// "CR 1. Replay a cab's recording in the office."
pub const REPLAY: u32 = 1;
/// "CR 2. Jitter goes both ways."
pub const JITTER_BOTH_WAYS: u32 = 2;
/// "CR 3. Less stack in choosing." "No answer changes, ties included."
pub const LESS_STACK: u32 = 3;
/// "CR 4. Stages for the boom message."
pub const STAGES: u32 = 4;
/// "CR 5. Sheets over the service cable."
pub const PIECES: u32 = 5;
/// "CR 6. Stop early posts at the door."
pub const DOOR: u32 = 6;
/// "CR 7. Check while the tablet stays alive." "We want it resumable".
pub const RESUMABLE: u32 = 7;
/// "CR 8. Lifting-gear maker on our computer." "A partner's streams will share the message table."
pub const PARTIES: u32 = 8;

/// The number that a program goes by, and its other arguments: [`IN_FORCE`], or, for trying, N
/// where the last arguments are `--requests N`. None if request N is not rendered here.
pub fn of_arguments<'a, 'b>(arguments: &'b [&'a str]) -> Option<(u32, &'b [&'a str])> {
    match arguments {
        [others @ .., "--requests", number] => {
            let number = number.parse().ok().filter(|&number| number <= RENDERED)?;
            Some((number, others))
        }
        _ => Some((IN_FORCE, arguments)),
    }
}

/// The number that a program goes by which takes no other arguments.
pub fn of_program() -> io::Result<u32> {
    let arguments: Vec<String> = std::env::args().skip(1).collect();
    let arguments: Vec<&str> = arguments.iter().map(String::as_str).collect();
    match of_arguments(&arguments) {
        Some((requests, [])) => Ok(requests),
        _ => Err(io::Error::other("no arguments but --requests N are taken")),
    }
}
