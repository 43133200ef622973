//! `compare trace|replay|record|checks BIN CASES SEED`: a program against the library, whole outputs,
//! a process for each case.

use std::fs;
use std::io;

use second::check;
use second::recording;
use second::replay;
use second::requests;
use second::trace::{self, Run};

use crate::cases::{self, Case};
use crate::programs::{self, Program, TemporaryFolder};
use crate::random::Random;

/// A program that is started anew for each case.
pub struct Kind {
    /// Its name.
    name: &'static str,
    /// The request that brings it, 0 for a program of document 01.
    request: u32,
    /// What it reads from standard input.
    input: &'static str,
    /// How the files are named that hold what it writes.
    written: [&'static str; 2],
    /// Makes a case for the requests up to a number in force.
    make: fn(&mut Random, u32) -> Case,
    /// What it is to write, with the requests up to a number in force.
    expected: fn(&Case, u32) -> Expected,
    /// Where two of its outputs differ first.
    first_difference: fn(&[u8], &[u8]) -> String,
}

/// What a program is to write on standard output, and what is counted of the case.
struct Expected {
    output: Vec<u8>,
    counts: Vec<(&'static str, u64)>,
}

/// The trace program.
pub const TRACE: Kind = Kind {
    name: "trace",
    request: 0,
    input: "trace",
    written: ["expected.txt", "found.txt"],
    make: |random, requests| cases::make(random, &cases::TO_RUN, requests),
    expected: |case, requests| {
        let run = trace::run(sheet_of(case), &case.input, requests);
        Expected {
            counts: counts_of_run(case, &run),
            output: run.output.into_bytes(),
        }
    },
    first_difference: programs::first_difference,
};

/// The replay program.
pub const REPLAY: Kind = Kind {
    name: "replay",
    request: requests::REPLAY,
    input: "recording",
    written: ["expected.txt", "found.txt"],
    make: cases::to_replay,
    expected: |case, requests| {
        let run = replay::run(sheet_of(case), &case.input, requests);
        let last = run.output.lines().last().filter(|_| !run.sheet_refused);
        let mut counts = counts_of_run(case, &run);
        counts.push(("ended", u64::from(last == Some("end"))));
        counts.push(("refused with 13", u64::from(last == Some("refused 13"))));
        counts.push(("refused with 14", u64::from(last == Some("refused 14"))));
        Expected {
            counts,
            output: run.output.into_bytes(),
        }
    },
    first_difference: programs::first_difference,
};

/// The record program. "a bad trace writes nothing but a message on standard error": that message
/// is not compared.
pub const RECORD: Kind = Kind {
    name: "record",
    request: requests::REPLAY,
    input: "trace",
    written: ["expected.bin", "found.bin"],
    make: cases::to_record,
    expected: |case, _| {
        let calls = trace::steps(&case.input);
        let counted = calls.as_ref().map_or(0, Vec::len) as u64;
        Expected {
            counts: vec![
                ("bad traces", u64::from(calls.is_err())),
                ("calls", counted),
            ],
            output: calls.map_or(Vec::new(), |calls| recording::recording_of(&calls)),
        }
    },
    first_difference: programs::first_different_byte,
};

/// The check program. Its progress on standard error is not compared.
pub const CHECKS: Kind = Kind {
    name: "check",
    request: requests::RESUMABLE,
    input: "input",
    written: ["expected.txt", "found.txt"],
    make: cases::to_check,
    expected: |case, requests| {
        let output = check::run(sheet_of(case), requests);
        let verdict = |word| u64::from(output.starts_with(word));
        let lines = |word| output.lines().filter(|line| line.starts_with(word)).count() as u64;
        Expected {
            counts: vec![
                ("accepted", verdict("accept")),
                ("late", verdict("late")),
                ("overload", verdict("overload")),
                ("refused", verdict("refused")),
                ("streams due", lines("stream ")),
                ("of them more than once", more_than_once(&output)),
                ("tasks blocked", lines("task ")),
            ],
            output: output.into_bytes(),
        }
    },
    first_difference: programs::first_difference,
};

impl Kind {
    /// Nothing, or that the request that brings the program is not in force.
    pub fn in_force(&self, requests: u32) -> io::Result<()> {
        programs::in_force(self.name, self.request, requests)
    }
}

/// How many lines say that a stream is due more than once.
fn more_than_once(output: &str) -> u64 {
    let due = output.lines().filter(|line| line.starts_with("stream "));
    due.filter(|line| !line.ends_with(" times 1")).count() as u64
}

fn sheet_of(case: &Case) -> &[u8] {
    case.sheet.as_deref().unwrap_or(&[])
}

fn counts_of_run(case: &Case, run: &Run) -> Vec<(&'static str, u64)> {
    let version_2 = !run.sheet_refused && sheet_of(case)[0] >> 4 == 2;
    vec![
        ("damaged sheets", u64::from(run.sheet_refused)),
        ("sheets of version 2", u64::from(version_2)),
        ("calls", run.calls),
        ("passed", run.output.matches(" passed ").count() as u64),
        (
            "refused at a door",
            run.output.matches(" refused 15\n").count() as u64,
        ),
    ]
}

/// Compares; whether all agreed.
pub fn compare(
    kind: &Kind,
    program: &Program,
    requests: u32,
    cases: u64,
    seed: u64,
) -> io::Result<bool> {
    let folder = TemporaryFolder::new()?;
    let mut totals: Vec<(&str, u64)> = Vec::new();
    for number in 0..cases {
        let mut random = Random::for_case(seed, number);
        let case = (kind.make)(&mut random, requests);
        let expected = (kind.expected)(&case, requests);
        let piece = random.pick(&[5, 64, usize::MAX, usize::MAX]);
        let found = run_case(program, &folder, &case, piece)?;
        programs::add(&mut totals, &expected.counts);
        if found != expected.output {
            report(kind, seed, number, &case, &expected.output, &found)?;
            programs::say_totals(number + 1, "cases", &totals, 1);
            return Ok(false);
        }
    }
    programs::say_totals(cases, "cases", &totals, 0);
    Ok(true)
}

/// Runs the program with the case's set.bin, or without one, and its input in pieces.
fn run_case(
    program: &Program,
    folder: &TemporaryFolder,
    case: &Case,
    piece: usize,
) -> io::Result<Vec<u8>> {
    let file = folder.path().join("set.bin");
    match &case.sheet {
        Some(sheet) => fs::write(&file, sheet)?,
        None if file.exists() => fs::remove_file(&file)?,
        None => {}
    }
    program.run(folder.path(), &case.input, piece)
}

fn report(
    kind: &Kind,
    seed: u64,
    number: u64,
    case: &Case,
    expected: &[u8],
    found: &[u8],
) -> io::Result<()> {
    let name = kind.name;
    let mut files: Vec<(&str, &[u8])> = vec![
        (kind.input, &case.input),
        (kind.written[0], expected),
        (kind.written[1], found),
    ];
    if let Some(sheet) = &case.sheet {
        files.push(("set.bin", sheet));
    }
    let folder = programs::write_out(&format!("{name}-seed-{seed}-case-{number}"), &files)?;
    println!(
        "{name} case {number} of seed {seed} differs, written to {}",
        folder.display()
    );
    println!("{}", (kind.first_difference)(expected, found));
    Ok(())
}

#[cfg(test)]
mod tests {
    use super::*;
    use second::requests::RENDERED;

    /// The totals of 400 cases, by name.
    fn totals(kind: &Kind) -> Vec<(&'static str, u64)> {
        let mut totals = Vec::new();
        for number in 0..400 {
            let case = (kind.make)(&mut Random::for_case(1, number), RENDERED);
            programs::add(&mut totals, &(kind.expected)(&case, RENDERED).counts);
        }
        totals
    }

    #[test]
    fn every_kind_of_case_comes_up() {
        for kind in [&TRACE, &REPLAY, &RECORD, &CHECKS] {
            let totals = totals(kind);
            for (name, total) in &totals {
                assert!(*total >= 20, "{} {name}: {total}", kind.name);
            }
            if kind.name == "replay" {
                // About one sheet in four.
                let (name, damaged) = totals[0];
                assert_eq!(name, "damaged sheets");
                assert!((60..=140).contains(&damaged), "{damaged}");
            }
        }
    }
}
