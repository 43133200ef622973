//! Running the first program, and writing out where it differs.

use std::fs;
use std::io::{self, Write};
use std::path::{Path, PathBuf};
use std::process::{Command, Stdio};
use std::thread;

/// A program to be compared.
pub struct Program {
    path: PathBuf,
}

impl Program {
    pub fn at(path: &str) -> io::Result<Program> {
        let path = fs::canonicalize(path)
            .map_err(|error| io::Error::new(error.kind(), format!("{path}: {error}")))?;
        Ok(Program { path })
    }

    /// Runs the program in a folder and gives what it printed on standard output. To one that was
    /// ended by a signal a line is added that no program prints.
    ///
    /// The input is written in pieces of the given size, as reading may bring any part of it.
    pub fn run(&self, folder: &Path, input: &[u8], piece: usize) -> io::Result<Vec<u8>> {
        let mut child = Command::new(&self.path)
            .current_dir(folder)
            .stdin(Stdio::piped())
            .stdout(Stdio::piped())
            .stderr(Stdio::null())
            .spawn()?;
        let mut stdin = child.stdin.take().expect("a piped standard input");
        let result = thread::scope(|scope| {
            // A program that stops early leaves its input unread, so a failed write is no fault.
            scope.spawn(move || {
                input
                    .chunks(piece)
                    .try_for_each(|part| stdin.write_all(part))
            });
            child.wait_with_output()
        })?;
        let mut output = result.stdout;
        if result.status.code().is_none() {
            output.extend(format!("({})\n", result.status).bytes());
        }
        Ok(output)
    }
}

/// A folder that is there as long as this value.
pub struct TemporaryFolder {
    path: PathBuf,
}

impl TemporaryFolder {
    pub fn new() -> io::Result<TemporaryFolder> {
        let path = std::env::temp_dir().join(format!("compare-{}", std::process::id()));
        fs::create_dir_all(&path)?;
        Ok(TemporaryFolder { path })
    }

    pub fn path(&self) -> &Path {
        &self.path
    }
}

impl Drop for TemporaryFolder {
    fn drop(&mut self) {
        // Nothing is lost if this fails, and there is nobody left to tell.
        let _ = fs::remove_dir_all(&self.path);
    }
}

/// Nothing, or that the request that brings what is to be compared is not in force.
pub fn in_force(name: &str, request: u32, requests: u32) -> io::Result<()> {
    if request <= requests {
        return Ok(());
    }
    Err(io::Error::other(format!(
        "request {request}, which brings {name}, is not in force"
    )))
}

/// Adds the counts of a case to those of the cases before it.
pub fn add(totals: &mut Vec<(&'static str, u64)>, counts: &[(&'static str, u64)]) {
    if totals.is_empty() {
        totals.extend(counts);
    } else {
        for (total, count) in totals.iter_mut().zip(counts) {
            total.1 += count.1;
        }
    }
}

/// Prints how much was compared, the counts, and how much of it differs.
pub fn say_totals(compared: u64, counted: &str, totals: &[(&str, u64)], differ: u64) {
    let mut line = format!("{compared} {counted}");
    for (name, count) in totals {
        line += &format!(", {count} {name}");
    }
    println!("{line}, {differ} differ");
}

/// Writes the files of a difference into the folder `differ/NAME` and gives its path.
pub fn write_out(name: &str, files: &[(&str, &[u8])]) -> io::Result<PathBuf> {
    let folder = Path::new("differ").join(name);
    if folder.exists() {
        fs::remove_dir_all(&folder)?;
    }
    fs::create_dir_all(&folder)?;
    for (file, bytes) in files {
        fs::write(folder.join(file), bytes)?;
    }
    Ok(folder)
}

/// The first line in which two outputs differ, counted from 1, and what each has there.
pub fn first_difference(expected: &[u8], found: &[u8]) -> String {
    let mut expected_lines = expected.split_inclusive(|&byte| byte == b'\n');
    let mut found_lines = found.split_inclusive(|&byte| byte == b'\n');
    let shown = |line: Option<&[u8]>| match line {
        Some(line) => format!("`{}`", line.escape_ascii()),
        None => "nothing".to_string(),
    };
    let mut number = 1;
    loop {
        let (expected, found) = (expected_lines.next(), found_lines.next());
        if expected != found {
            return format!(
                "line {number}: expected {}, found {}",
                shown(expected),
                shown(found)
            );
        }
        if expected.is_none() {
            return "no line".to_string();
        }
        number += 1;
    }
}

/// The first byte in which two outputs differ, counted from 0, and what each has there.
pub fn first_different_byte(expected: &[u8], found: &[u8]) -> String {
    let longer = expected.len().max(found.len());
    let shown = |byte: Option<&u8>| byte.map_or("nothing".to_string(), |b| format!("{b:02x}"));
    match (0..longer).find(|&place| expected.get(place) != found.get(place)) {
        Some(place) => format!(
            "byte {place}: expected {}, found {}",
            shown(expected.get(place)),
            shown(found.get(place))
        ),
        None => "no byte".to_string(),
    }
}
