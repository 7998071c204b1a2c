//! Standard input and output of the programs.

use std::io::{self, Read, Write};

/// Reads standard input to its end and prints what the program prints for it.
pub fn answer(program: impl Fn(&[u8]) -> Vec<u8>) -> io::Result<()> {
    let mut input = Vec::new();
    io::stdin().lock().read_to_end(&mut input)?;
    io::stdout().lock().write_all(&program(&input))
}
