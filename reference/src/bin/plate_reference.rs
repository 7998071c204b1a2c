//! Reads standard input and prints what `plate` prints for it.

use std::io;

fn main() -> io::Result<()> {
    reference::standard::answer(reference::plate)
}
