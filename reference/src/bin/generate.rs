//! Writes the tape of a seed, with at most so many acts, to standard output.

use reference::generate;
use std::env;
use std::io::{self, BufWriter};
use std::process::ExitCode;

fn main() -> ExitCode {
    let arguments: Vec<String> = env::args().skip(1).collect();
    let numbers: Option<Vec<u64>> = arguments.iter().map(|text| text.parse().ok()).collect();
    let Some([seed, acts]) = numbers.as_deref() else {
        eprintln!("usage: generate SEED COUNT, the most acts of a session");
        return ExitCode::from(2);
    };
    let output = BufWriter::new(io::stdout().lock());
    match generate::write_any_tape(*seed, *acts as usize, output) {
        Ok(()) => ExitCode::SUCCESS,
        Err(error) => {
            eprintln!("generate: {error}");
            ExitCode::FAILURE
        }
    }
}
