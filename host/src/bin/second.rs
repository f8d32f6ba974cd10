//! Reads a marking file on standard input and prints what the second implementation says of it, in
//! the form of the listing program.

use mezhkura::second::program_output;
use std::io::{self, Read, Write};

fn main() -> io::Result<()> {
    let mut file = Vec::new();
    io::stdin().read_to_end(&mut file)?;
    io::stdout().write_all(program_output(&file).as_bytes())
}
