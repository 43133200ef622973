//! The console program: reads commands from standard input, a line each, and prints the answers.
//! `second-console --requests N` goes by the requests up to N, for trying.

use std::io::{self, BufRead, Write};
use std::process::ExitCode;

use second::console::Console;
use second::requests;

fn main() -> io::Result<ExitCode> {
    let arguments: Vec<String> = std::env::args().skip(1).collect();
    let arguments: Vec<&str> = arguments.iter().map(String::as_str).collect();
    let Some((requests, [])) = requests::of_arguments(&arguments) else {
        eprintln!("second-console [--requests N]");
        return Ok(ExitCode::from(2));
    };
    let mut console = Console::new(requests);
    let mut input = io::stdin().lock();
    let mut output = io::stdout().lock();
    let mut line = Vec::new();
    loop {
        line.clear();
        if input.read_until(b'\n', &mut line)? == 0 {
            return Ok(ExitCode::SUCCESS);
        }
        let answer = console.line(line.strip_suffix(b"\n").unwrap_or(&line));
        output.write_all(answer.as_bytes())?;
    }
}
