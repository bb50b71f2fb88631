//! Reads a tape from standard input and writes its text to standard output.

use std::io::{self, BufWriter};

fn main() -> io::Result<()> {
    reference::text::dump(io::stdin().lock(), BufWriter::new(io::stdout().lock()))
}
