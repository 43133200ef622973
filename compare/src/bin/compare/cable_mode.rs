//! `compare cable BIN CASES SEED`: the cable program against the library: what it prints and the
//! file set.bin afterwards, a process for each case.

use std::fs;
use std::io;
use std::path::Path;

use second::cable::{self, BrokenFrame};
use second::requests::PIECES;

use crate::pieces;
use crate::programs::{self, Program, TemporaryFolder};
use crate::random::Random;
use crate::sets;
use crate::sheets;

/// What the program is given.
struct Case {
    /// The bytes of set.bin before, none if there is no such file.
    before: Option<Vec<u8>>,
    /// Standard input.
    frames: Vec<u8>,
    pieces: u64,
    empty_pieces: u64,
}

/// What it is to print and to leave.
#[derive(PartialEq, Eq)]
struct Left {
    output: Vec<u8>,
    /// The bytes of set.bin afterwards, none if there is no such file.
    after: Option<Vec<u8>>,
}

#[derive(Default)]
struct Counts {
    sets_read: u64,
    refused: u64,
    broken: u64,
    pieces: u64,
    empty_pieces: u64,
    files_before: u64,
    other_files: u64,
}

/// Nothing, or that the request that brings the program is not in force.
pub fn in_force(requests: u32) -> io::Result<()> {
    programs::in_force("cable", PIECES, requests)
}

fn make(random: &mut Random, requests: u32) -> Case {
    let bytes = pieces::sheet(random, requests);
    let pieces = pieces::cut(random, &bytes);
    let mut frames = pieces::frames(&pieces);
    if random.one_in(12) {
        broken(random, &mut frames);
    }
    Case {
        before: file_before(random, requests),
        frames,
        pieces: pieces.len() as u64,
        empty_pieces: pieces.iter().filter(|piece| piece.is_empty()).count() as u64,
    }
}

/// Makes the last frame stop early, mostly: bytes are cut off, or a length is put behind the rest.
fn broken(random: &mut Random, frames: &mut Vec<u8>) {
    match random.below(3) {
        0 => frames.truncate(random.index(frames.len() + 1)),
        1 => frames.push(random.byte().max(1)),
        _ => {
            let length = random.between(2, 255);
            frames.push(length as u8);
            for _ in 0..random.index(length as usize) {
                frames.push(random.byte());
            }
        }
    }
}

/// Some old set.bin, longer or shorter than the new one, or none.
fn file_before(random: &mut Random, requests: u32) -> Option<Vec<u8>> {
    match random.below(6) {
        0..=1 => None,
        2 => Some(Vec::new()),
        3 => Some((0..random.index(700)).map(|_| random.byte()).collect()),
        _ => Some(sheets::of_set(&sets::any(random, requests))),
    }
}

/// "A frame that stops early [...] prints `broken frame` on standard error and nothing on standard
/// output, and set.bin stays as it was."
fn expected(case: &Case, requests: u32) -> Left {
    match cable::run(&case.frames, requests) {
        Ok(brought) => Left {
            output: brought.output.into_bytes(),
            after: brought.sheet.or_else(|| case.before.clone()),
        },
        Err(BrokenFrame) => Left {
            output: Vec::new(),
            after: case.before.clone(),
        },
    }
}

/// Runs the program in a fresh folder; also whether it left another file there.
fn found(program: &Program, folder: &Path, case: &Case, piece: usize) -> io::Result<(Left, bool)> {
    if folder.exists() {
        fs::remove_dir_all(folder)?;
    }
    fs::create_dir(folder)?;
    let file = folder.join("set.bin");
    if let Some(bytes) = &case.before {
        fs::write(&file, bytes)?;
    }
    let output = program.run(folder, &case.frames, piece)?;
    let after = match fs::read(&file) {
        Err(error) if error.kind() == io::ErrorKind::NotFound => None,
        bytes => Some(bytes?),
    };
    let files = fs::read_dir(folder)?.count();
    let others = files > usize::from(after.is_some());
    Ok((Left { output, after }, others))
}

/// Compares; whether all agreed.
pub fn compare(program: &Program, requests: u32, cases: u64, seed: u64) -> io::Result<bool> {
    let folder = TemporaryFolder::new()?;
    let mut counts = Counts::default();
    for number in 0..cases {
        let mut random = Random::for_case(seed, number);
        let case = make(&mut random, requests);
        let expected = expected(&case, requests);
        let piece = random.pick(&[1, 5, 64, usize::MAX, usize::MAX]);
        let (found, others) = found(program, &folder.path().join("case"), &case, piece)?;
        counts.add(&case, &expected, others);
        if found != expected {
            report(seed, number, &case, &expected, &found)?;
            counts.say(number + 1, 1);
            return Ok(false);
        }
    }
    counts.say(cases, 0);
    Ok(true)
}

impl Counts {
    fn add(&mut self, case: &Case, expected: &Left, others: bool) {
        self.sets_read += u64::from(expected.output.starts_with(b"set"));
        self.refused += u64::from(expected.output.starts_with(b"refused"));
        self.broken += u64::from(expected.output.is_empty());
        self.pieces += case.pieces;
        self.empty_pieces += case.empty_pieces;
        self.files_before += u64::from(case.before.is_some());
        self.other_files += u64::from(others);
    }

    fn say(&self, cases: u64, differ: u64) {
        println!(
            "{cases} cases, {} sets read, {} refused sheets, {} broken frames, {} pieces, {} of no bytes, {} with a set.bin before, {} with another file left, {differ} differ",
            self.sets_read,
            self.refused,
            self.broken,
            self.pieces,
            self.empty_pieces,
            self.files_before,
            self.other_files
        );
    }
}

fn report(seed: u64, number: u64, case: &Case, expected: &Left, found: &Left) -> io::Result<()> {
    let mut files: Vec<(&str, &[u8])> = vec![
        ("frames", &case.frames),
        ("expected.txt", &expected.output),
        ("found.txt", &found.output),
    ];
    for (name, bytes) in [
        ("before.bin", &case.before),
        ("expected.bin", &expected.after),
        ("found.bin", &found.after),
    ] {
        if let Some(bytes) = bytes {
            files.push((name, bytes));
        }
    }
    let folder = programs::write_out(&format!("cable-seed-{seed}-case-{number}"), &files)?;
    println!(
        "cable case {number} of seed {seed} differs, written to {}",
        folder.display()
    );
    println!(
        "standard output, {}",
        programs::first_difference(&expected.output, &found.output)
    );
    let [expected, found] = [expected, found].map(|left| left.after.as_deref());
    println!(
        "set.bin {}, expected {}, found {}",
        programs::first_different_byte(expected.unwrap_or(&[]), found.unwrap_or(&[])),
        said(expected),
        said(found)
    );
    Ok(())
}

fn said(file: Option<&[u8]>) -> String {
    file.map_or("no file".to_string(), |bytes| {
        format!("{} bytes", bytes.len())
    })
}

#[cfg(test)]
mod tests {
    use super::*;
    use second::requests::RENDERED;

    #[test]
    fn every_kind_of_case_comes_up() {
        let mut counts = Counts::default();
        let mut written_over_longer = 0;
        for number in 0..1_000 {
            let case = make(&mut Random::for_case(1, number), RENDERED);
            let expected = expected(&case, RENDERED);
            counts.add(&case, &expected, false);
            let longer = case.before.as_ref() > expected.after.as_ref();
            written_over_longer += u64::from(expected.output.starts_with(b"set") && longer);
        }
        for count in [
            counts.sets_read,
            counts.refused,
            counts.broken,
            counts.files_before,
            1_000 - counts.files_before,
            counts.empty_pieces,
            written_over_longer,
        ] {
            assert!(count > 20, "{count}");
        }
    }
}
