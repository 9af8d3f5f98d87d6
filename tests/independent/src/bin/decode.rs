//! Reads a capture of answers on standard input and prints a line for each piece.

use independent::decode::decode;
use std::io::{self, Read, Write};

fn main() -> io::Result<()> {
    let mut capture = vec![];
    io::stdin().lock().read_to_end(&mut capture)?;
    io::stdout().lock().write_all(&decode(&capture))
}
