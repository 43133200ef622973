//! The replay program of request 1: "set.bin, the recording from standard input: the lines of the
//! trace program, the verdict first, then `end` or `refused 13` or `refused 14`".

use std::io::{self, Read, Write};

use second::requests::of_program;
use second::{replay, sheet};

fn main() -> io::Result<()> {
    let requests = of_program()?;
    let sheet = sheet::bytes_of_file()?;
    let mut recording = Vec::new();
    io::stdin().read_to_end(&mut recording)?;
    let run = replay::run(&sheet, &recording, requests);
    io::stdout().write_all(run.output.as_bytes())
}
