//! The check program of request 7: reads set.bin, prints the verdict and, for a late set, what its
//! demand is made of.

use std::io::{self, Write};

use second::requests::of_program;
use second::{check, sheet};

fn main() -> io::Result<()> {
    let requests = of_program()?;
    let sheet = sheet::bytes_of_file()?;
    io::stdout().write_all(check::run(&sheet, requests).as_bytes())
}
