//! Cases for the program that reads many of them from one file.
//!
//! `compare batch CASES SEED DIR` stores them with their expected outputs; `compare answers FILE` prints what is
//! expected of cases that are stored already, and `compare answers-replay FILE` of those with recordings; `compare many BIN CASES SEED` and `compare damaged BIN CASES SEED` run
//! the program on them, a few thousand at a time.

use std::fmt::Write;
use std::fs;
use std::io::{self, Write as _};
use std::ops::Range;
use std::path::Path;

use second::trace::{self, Run};

use crate::cases::{self, Sheets};
use crate::programs::{self, Program, TemporaryFolder};
use crate::random::Random;
use crate::traces::Lengths;

/// "a length of 0xFFFFFFFF ends the file"
const END: u32 = u32::MAX;

/// How many cases one run of the program takes.
const RUN: u64 = 2_000;

/// Cases as the program reads them, and what it is to print.
struct Stored {
    bytes: Vec<u8>,
    expected: String,
    damaged: u64,
    version_2: u64,
    calls: u64,
    passed: u64,
    at_door: u64,
}

impl Stored {
    fn new() -> Stored {
        Stored {
            bytes: Vec::new(),
            expected: String::new(),
            damaged: 0,
            version_2: 0,
            calls: 0,
            passed: 0,
            at_door: 0,
        }
    }

    /// Adds what is expected of the case at a place: what its run printed.
    fn expect(&mut self, place: usize, sheet: &[u8], run: &Run) {
        writeln!(self.expected, "case {place}").expect("a string takes all that is written to it");
        self.expected += &run.output;
        self.damaged += u64::from(run.sheet_refused);
        self.version_2 += u64::from(!run.sheet_refused && sheet[0] >> 4 == 2);
        self.calls += run.calls;
        self.passed += run.output.matches(" passed ").count() as u64;
        self.at_door += run.output.matches(" refused 15\n").count() as u64;
    }

    /// What is counted.
    fn counts(&self) -> [(&'static str, u64); 5] {
        [
            ("damaged sheets", self.damaged),
            ("sheets of version 2", self.version_2),
            ("calls", self.calls),
            ("passed", self.passed),
            ("refused at a door", self.at_door),
        ]
    }
}

/// The line of the counts.
fn said(cases: u64, counts: &[(&str, u64)]) -> String {
    let mut line = format!("{cases} cases");
    for (name, count) in counts {
        write!(line, ", {count} {name}").expect("a string takes all that is written to it");
    }
    line
}

/// The length as four bytes, most significant first, and the bytes.
fn store(stored: &mut Vec<u8>, bytes: &[u8]) {
    stored.extend((bytes.len() as u32).to_be_bytes());
    stored.extend(bytes);
}

/// A missing set.bin cannot be told from an empty one in this format; both are read as no bytes.
fn stored(
    which: Sheets,
    lengths: &Lengths,
    requests: u32,
    seed: u64,
    numbers: Range<u64>,
) -> Stored {
    let mut all = Stored::new();
    for (place, number) in numbers.enumerate() {
        let mut random = Random::for_case(seed, number);
        let case = cases::make_of(which, &mut random, lengths, requests);
        let sheet = case.sheet.unwrap_or_default();
        store(&mut all.bytes, &sheet);
        store(&mut all.bytes, &case.input);
        all.expect(place, &sheet, &trace::run(&sheet, &case.input, requests));
    }
    all.bytes.extend(END.to_be_bytes());
    all
}

/// Writes `cases.bin` and `expected.txt`.
pub fn write(requests: u32, cases: u64, seed: u64, folder: &Path) -> io::Result<()> {
    let all = stored(Sheets::Mixed, &cases::TO_STORE, requests, seed, 0..cases);
    fs::create_dir_all(folder)?;
    fs::write(folder.join("cases.bin"), &all.bytes)?;
    fs::write(folder.join("expected.txt"), &all.expected)?;
    println!("{}", said(cases, &all.counts()));
    println!(
        "cases.bin {} bytes, expected.txt {} bytes",
        all.bytes.len(),
        all.expected.len()
    );
    Ok(())
}

/// A length and so many bytes, taken from the front of what is stored; none at the end.
fn take<'a>(rest: &mut &'a [u8]) -> io::Result<Option<&'a [u8]>> {
    let short = || io::Error::other("the cases have no end");
    let (length, behind) = rest.split_first_chunk().ok_or_else(short)?;
    let length = u32::from_be_bytes(*length);
    if length == END {
        return Ok(None);
    }
    let (bytes, behind) = behind.split_at_checked(length as usize).ok_or_else(short)?;
    *rest = behind;
    Ok(Some(bytes))
}

/// What a program is to make of a sheet and its standard input with the requests up to a number in
/// force.
pub type Runs = fn(&[u8], &[u8], u32) -> Run;

/// What is expected of the stored cases.
fn answers(mut rest: &[u8], runs: Runs, requests: u32) -> io::Result<Stored> {
    let mut all = Stored::new();
    let mut place = 0;
    while let Some(sheet) = take(&mut rest)? {
        let input = take(&mut rest)?.ok_or_else(|| io::Error::other("a case has no input"))?;
        all.expect(place, sheet, &runs(sheet, input, requests));
        place += 1;
    }
    Ok(all)
}

/// Prints what is expected of the cases of a file, as `expected.txt` has it.
pub fn print_answers(runs: Runs, requests: u32, file: &Path) -> io::Result<()> {
    let all = answers(&fs::read(file)?, runs, requests)?;
    io::stdout().write_all(all.expected.as_bytes())
}

/// Compares; whether all agreed.
pub fn compare(
    program: &Program,
    which: Sheets,
    requests: u32,
    cases: u64,
    seed: u64,
) -> io::Result<bool> {
    let lengths = match which {
        Sheets::Mixed | Sheets::MoreGood => &cases::TO_RUN,
        Sheets::Damaged => &cases::TO_STORE,
    };
    let folder = TemporaryFolder::new()?;
    let mut totals = Stored::new().counts();
    let mut first = 0;
    while first < cases {
        let end = cases.min(first + RUN);
        let run = stored(which, lengths, requests, seed, first..end);
        fs::write(folder.path().join("cases.bin"), &run.bytes)?;
        let found = program.run(folder.path(), &[], 1)?;
        for (total, count) in totals.iter_mut().zip(run.counts()) {
            total.1 += count.1;
        }
        if found != run.expected.as_bytes() {
            report(seed, first, &run, &found)?;
            println!("{}, 1 differ", said(end, &totals));
            return Ok(false);
        }
        first = end;
    }
    println!("{}, 0 differ", said(cases, &totals));
    Ok(true)
}

fn report(seed: u64, first: u64, run: &Stored, found: &[u8]) -> io::Result<()> {
    let files: [(&str, &[u8]); 3] = [
        ("cases.bin", &run.bytes),
        ("expected.txt", run.expected.as_bytes()),
        ("found.txt", found),
    ];
    let folder = programs::write_out(&format!("batch-seed-{seed}-from-{first}"), &files)?;
    println!(
        "of the cases from {first} of seed {seed} one differs, written to {}",
        folder.display()
    );
    println!(
        "{}",
        programs::first_difference(run.expected.as_bytes(), found)
    );
    Ok(())
}

#[cfg(test)]
mod tests {
    use super::*;
    use second::requests::{LESS_STACK, RENDERED};

    #[test]
    fn stored_cases_are_answered_as_when_they_were_stored() {
        for requests in [LESS_STACK, RENDERED] {
            let all = stored(Sheets::Mixed, &cases::TO_STORE, requests, 3, 0..100);
            let again = answers(&all.bytes, trace::run, requests).expect("cases with an end");
            assert_eq!(again.expected, all.expected);
            assert_eq!(again.counts(), all.counts());
            let cut = &all.bytes[..all.bytes.len() - 1];
            assert!(answers(cut, trace::run, requests).is_err());
        }
        let no_input = [0, 0, 0, 0, 255, 255, 255, 255];
        for bytes in [&[][..], &no_input] {
            assert!(answers(bytes, trace::run, RENDERED).is_err());
        }
    }
}
