//! The trace program of document 01: "It reads a sheet from the file set.bin and a trace from
//! standard input".

use std::io::{self, Read, Write};

use second::requests::of_program;
use second::{sheet, trace};

fn main() -> io::Result<()> {
    let requests = of_program()?;
    let sheet = sheet::bytes_of_file()?;
    let mut steps = Vec::new();
    io::stdin().read_to_end(&mut steps)?;
    let run = trace::run(&sheet, &steps, requests);
    io::stdout().write_all(run.output.as_bytes())
}
