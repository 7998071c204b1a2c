//! Reads standard input and prints what `verify` prints for it.

use std::io;

fn main() -> io::Result<()> {
    reference::standard::answer(reference::verify)
}
