//! The program as the plain code would write it: the tests of the program are tried on it, and it
//! is a second opinion beside the model.
use std::io::{self, Read, Write};

use harness::program::{output, PLAIN};

fn main() -> io::Result<()> {
    let mut input = Vec::new();
    io::stdin().read_to_end(&mut input)?;
    io::stdout().write_all(output(PLAIN, &input).as_bytes())
}
