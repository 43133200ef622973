//! The cable program of request 5: the pieces of a sheet from standard input, in frames; prints
//! what closing answers and, where a set was read, writes its sheet to the file set.bin.

use std::fs;
use std::io::{self, Read, Write};
use std::process::ExitCode;

use second::cable;
use second::requests::of_program;

fn main() -> io::Result<ExitCode> {
    let requests = of_program()?;
    let mut frames = Vec::new();
    io::stdin().read_to_end(&mut frames)?;
    let Ok(brought) = cable::run(&frames, requests) else {
        eprintln!("broken frame");
        return Ok(ExitCode::FAILURE);
    };
    if let Some(sheet) = brought.sheet {
        // "whole or not at all": the file takes its name when all of it is written.
        fs::write("set.bin.new", sheet)?;
        fs::rename("set.bin.new", "set.bin")?;
    }
    io::stdout().write_all(brought.output.as_bytes())?;
    Ok(ExitCode::SUCCESS)
}
