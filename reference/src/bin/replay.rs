//! Plays the tape on standard input and writes its lines to standard output.

use std::io::{self, BufWriter};

fn main() -> io::Result<()> {
    reference::report::replay(io::stdin().lock(), BufWriter::new(io::stdout().lock()))
}
