//! The record program of request 1: "a trace from standard input, its recording to standard
//! output; a bad trace writes nothing but a message on standard error".

use std::io::{self, Read, Write};
use std::process::ExitCode;

use second::{recording, trace};

fn main() -> io::Result<ExitCode> {
    let mut steps = Vec::new();
    io::stdin().read_to_end(&mut steps)?;
    match trace::steps(&steps) {
        Ok(calls) => {
            io::stdout().write_all(&recording::recording_of(&calls))?;
            Ok(ExitCode::SUCCESS)
        }
        Err(refusal) => {
            eprintln!("{refusal}");
            Ok(ExitCode::FAILURE)
        }
    }
}
