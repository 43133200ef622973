//! `compare console BIN LINES SEED`, `compare pieces BIN SHEETS SEED`, `compare check BIN SETS SEED`,
//! `compare parties BIN STARTS SEED`: the console program against the library, line by line.

use std::io;

use second::requests;

use crate::programs::{self, Program, TemporaryFolder};
use crate::random::Random;
use crate::scripts::{self, Line};

/// A kind of scripts for the console.
pub struct Kind {
    /// Its name.
    name: &'static str,
    /// The request that brings what it is about, 0 for document 01.
    request: u32,
    /// What is counted.
    counted: &'static str,
    /// How much of it is in one run of the program, about.
    in_script: u64,
    /// Makes a script of at least so much, with the requests up to a number in force.
    make: fn(&mut Random, u32, u64) -> Made,
}

/// A script that was made.
pub struct Made {
    pub script: Vec<Line>,
    /// How much it has of what is counted.
    pub count: u64,
    /// What else is counted of it.
    pub others: Vec<(&'static str, u64)>,
}

/// Scripts about everything.
pub const CONSOLE: Kind = Kind {
    name: "console",
    request: 0,
    counted: "lines",
    in_script: 2_000,
    make: |random, requests, at_least| {
        let script = scripts::make(random, requests, at_least as usize);
        Made {
            count: script.len() as u64,
            script,
            others: Vec::new(),
        }
    },
};

/// Scripts of sheets that are cut into pieces.
pub const PIECES: Kind = Kind {
    name: "pieces",
    request: requests::PIECES,
    counted: "sheets",
    in_script: 60,
    make: scripts::in_pieces,
};

/// Scripts of sets whose check is divided among calls.
pub const CHECK: Kind = Kind {
    name: "check",
    request: requests::RESUMABLE,
    counted: "sets",
    in_script: 100,
    make: scripts::divided_checks,
};

/// Scripts of starts with owners and places, and of what two parties post.
pub const PARTIES: Kind = Kind {
    name: "parties",
    request: requests::PARTIES,
    counted: "starts",
    in_script: 60,
    make: scripts::shared_starts,
};

impl Kind {
    /// Nothing, or that the request that brings what it is about is not in force.
    pub fn in_force(&self, requests: u32) -> io::Result<()> {
        programs::in_force(self.name, self.request, requests)
    }
}

/// Compares; whether all agreed.
pub fn compare(
    kind: &Kind,
    program: &Program,
    requests: u32,
    wanted: u64,
    seed: u64,
) -> io::Result<bool> {
    let folder = TemporaryFolder::new()?;
    let mut compared = 0;
    let mut number = 0;
    let mut totals: Vec<(&str, u64)> = Vec::new();
    while compared < wanted {
        let mut random = Random::for_case(seed, number);
        let at_least = kind.in_script.min(wanted - compared);
        let made = (kind.make)(&mut random, requests, at_least);
        programs::add(&mut totals, &made.others);
        let input = input_of(&mut random, &made.script);
        let piece = random.pick(&[61, 4_096, usize::MAX]);
        let found = program.run(folder.path(), &input, piece)?;
        if let Some(agreed) = lines_agreed(&made.script, &found) {
            report(kind, seed, number, &made.script, &input, agreed, &found)?;
            let upto = (agreed as u64 + 1).min(made.count);
            programs::say_totals(compared + upto, kind.counted, &totals, 1);
            return Ok(false);
        }
        compared += made.count;
        number += 1;
    }
    programs::say_totals(compared, kind.counted, &totals, 0);
    Ok(true)
}

/// The script as the program reads it. "The last line may lack its newline."
fn input_of(random: &mut Random, script: &[Line]) -> Vec<u8> {
    let texts: Vec<&[u8]> = script.iter().map(|line| line.text.as_slice()).collect();
    let mut input = texts.join(&b'\n');
    if random.one_in(2) {
        input.push(b'\n');
    }
    input
}

/// None if the program printed what every line prints, else how many lines it did so for. One
/// that printed more than it should did so for all but the last.
fn lines_agreed(script: &[Line], found: &[u8]) -> Option<usize> {
    let mut rest = found;
    for (place, line) in script.iter().enumerate() {
        match rest.strip_prefix(line.answer.as_bytes()) {
            Some(after) => rest = after,
            None => return Some(place),
        }
    }
    if rest.is_empty() {
        None
    } else {
        Some(script.len().saturating_sub(1))
    }
}

fn report(
    kind: &Kind,
    seed: u64,
    number: u64,
    script: &[Line],
    input: &[u8],
    place: usize,
    found: &[u8],
) -> io::Result<()> {
    let name = kind.name;
    let expected: String = script.iter().map(|line| line.answer.as_str()).collect();
    let folder = programs::write_out(
        &format!("{name}-seed-{seed}-script-{number}"),
        &[
            ("script", input),
            ("expected.txt", expected.as_bytes()),
            ("found.txt", found),
        ],
    )?;
    println!(
        "{name} script {number} of seed {seed} differs, written to {}",
        folder.display()
    );
    println!(
        "at line {} of the script, `{}`",
        place + 1,
        script[place].text.escape_ascii()
    );
    println!(
        "output {}",
        programs::first_difference(expected.as_bytes(), found)
    );
    Ok(())
}

#[cfg(test)]
mod tests {
    use super::*;

    fn script() -> Vec<Line> {
        [("unit", "0 idle\n"), ("", ""), ("unit", "1 idle\n")]
            .into_iter()
            .map(|(text, answer)| Line {
                text: text.into(),
                answer: answer.into(),
            })
            .collect()
    }

    #[test]
    fn the_line_that_differs_is_found() {
        assert_eq!(lines_agreed(&script(), b"0 idle\n1 idle\n"), None);
        assert_eq!(lines_agreed(&script(), b"0 idle\n2 idle\n"), Some(2));
        assert_eq!(lines_agreed(&script(), b"1 idle\n"), Some(0));
        assert_eq!(lines_agreed(&script(), b"0 idle\n"), Some(2));
        assert_eq!(lines_agreed(&script(), b"0 idle\n1 idle\n?\n"), Some(2));
        assert_eq!(lines_agreed(&script(), b""), Some(0));
    }
}
