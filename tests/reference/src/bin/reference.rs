//! Reads a trace text from standard input and prints its record.

use std::io::{self, Read, Write};

/// "The program reads up to 16,385 bytes".
const MOST_READ: u64 = 16_385;

fn main() -> io::Result<()> {
    let mut input = Vec::new();
    io::stdin().take(MOST_READ).read_to_end(&mut input)?;
    let mut output = io::stdout();
    output.write_all(&reference::program(&input))?;
    output.flush()
}
