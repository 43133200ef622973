//! Compares the first program with the second one on random cases made from a seed.

#![forbid(unsafe_code)]

mod batch_mode;
mod cable_mode;
mod cases;
mod console_mode;
mod isolation_mode;
mod ontime_mode;
mod parties;
mod pieces;
mod plays;
mod process_mode;
mod programs;
mod random;
mod recordings;
mod scripts;
mod second_runs;
mod sets;
mod sheets;
mod traces;

use std::io;
use std::path::Path;
use std::process::ExitCode;

use second::{replay, requests, trace};

use cases::Sheets;
use programs::Program;

const USAGE: &str = "\
compare trace BIN CASES SEED    the trace program BIN against the library
compare console BIN LINES SEED  the console program BIN against the library
compare many BIN CASES SEED     the program BIN of many cases against the library, on mixed sheets
compare damaged BIN CASES SEED  the program BIN of many cases against the library, on damaged sheets
compare replay BIN CASES SEED   the replay program BIN against the library
compare record BIN CASES SEED   the record program BIN against the library
compare pieces BIN SHEETS SEED  the console program BIN on sheets that come in pieces
compare cable BIN CASES SEED    the cable program BIN against the library
compare check BIN SETS SEED     the console program BIN on checks that are divided among calls
compare parties BIN STARTS SEED the console program BIN on starts with owners and places
compare checks BIN CASES SEED   the check program BIN against the library
compare batch CASES SEED DIR    writes DIR/cases.bin and DIR/expected.txt
compare answers FILE            prints what is expected of the stored cases in FILE
compare answers-replay FILE     the same of cases with recordings
compare ontime CASES SEED       that accepted sets run on time
compare isolation CASES SEED    that a party's answers depend on what it sees alone
compare in-force                prints the number up to which requests are in force
With --requests N behind the others that number is N, for trying.";

/// Exit status 0 if nothing differs, 1 if something does, 2 if it could not be compared.
fn main() -> ExitCode {
    let arguments: Vec<String> = std::env::args().skip(1).collect();
    let arguments: Vec<&str> = arguments.iter().map(String::as_str).collect();
    let done = requests::of_arguments(&arguments)
        .and_then(|(requests, arguments)| run(arguments, requests));
    match done {
        Some(Ok(true)) => ExitCode::SUCCESS,
        Some(Ok(false)) => ExitCode::from(1),
        Some(Err(error)) => {
            eprintln!("compare: {error}");
            ExitCode::from(2)
        }
        None => {
            eprintln!("{USAGE}");
            ExitCode::from(2)
        }
    }
}

/// Does what the arguments say, with the requests up to a number in force; none if they say
/// nothing that can be done.
fn run(arguments: &[&str], requests: u32) -> Option<io::Result<bool>> {
    let number = |word: &str| word.parse::<u64>().ok();
    match arguments {
        [which @ ("trace" | "replay" | "record" | "checks"), program, cases, seed] => {
            let (cases, seed) = (number(cases)?, number(seed)?);
            let kind = match *which {
                "trace" => process_mode::TRACE,
                "replay" => process_mode::REPLAY,
                "record" => process_mode::RECORD,
                _ => process_mode::CHECKS,
            };
            let program = kind.in_force(requests).and_then(|()| Program::at(program));
            Some(program.and_then(|p| process_mode::compare(&kind, &p, requests, cases, seed)))
        }
        [which @ ("console" | "pieces" | "check" | "parties"), program, count, seed] => {
            let (count, seed) = (number(count)?, number(seed)?);
            let kind = match *which {
                "console" => console_mode::CONSOLE,
                "pieces" => console_mode::PIECES,
                "parties" => console_mode::PARTIES,
                _ => console_mode::CHECK,
            };
            let program = kind.in_force(requests).and_then(|()| Program::at(program));
            Some(program.and_then(|p| console_mode::compare(&kind, &p, requests, count, seed)))
        }
        ["cable", program, cases, seed] => {
            let (cases, seed) = (number(cases)?, number(seed)?);
            let program = cable_mode::in_force(requests).and_then(|()| Program::at(program));
            Some(program.and_then(|p| cable_mode::compare(&p, requests, cases, seed)))
        }
        [which @ ("many" | "damaged"), program, cases, seed] => {
            let (cases, seed) = (number(cases)?, number(seed)?);
            let sheets = match *which {
                "many" => Sheets::Mixed,
                _ => Sheets::Damaged,
            };
            let program = Program::at(program);
            Some(program.and_then(|p| batch_mode::compare(&p, sheets, requests, cases, seed)))
        }
        ["batch", cases, seed, folder] => {
            let (cases, seed) = (number(cases)?, number(seed)?);
            Some(batch_mode::write(requests, cases, seed, Path::new(folder)).map(|()| true))
        }
        [which @ ("answers" | "answers-replay"), file] => {
            let runs: batch_mode::Runs = match *which {
                "answers" => trace::run,
                _ => replay::run,
            };
            Some(batch_mode::print_answers(runs, requests, Path::new(file)).map(|()| true))
        }
        ["in-force"] => {
            println!("{requests}");
            Some(Ok(true))
        }
        ["ontime", cases, seed] => {
            Some(ontime_mode::check(requests, number(cases)?, number(seed)?))
        }
        ["isolation", cases, seed] => {
            let (cases, seed) = (number(cases)?, number(seed)?);
            Some(isolation_mode::check(requests, cases, seed))
        }
        _ => None,
    }
}
