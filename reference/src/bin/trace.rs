//! Plays the tape on standard input and writes its lines to standard output, with every byte.

use std::io::{self, BufWriter};

fn main() -> io::Result<()> {
    reference::report::trace(io::stdin().lock(), BufWriter::new(io::stdout().lock()))
}
