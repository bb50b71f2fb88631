//! The programs under test, and this library's own output to compare with.

use reference::{report, text};
use std::env;
use std::io::Write;
use std::path::{Path, PathBuf};
use std::process::{Command, Stdio};
use std::thread;

/// The path that an environment variable gives; without it no comparison can pass.
pub fn path_from(variable: &str) -> PathBuf {
    match env::var_os(variable) {
        Some(path) if !path.is_empty() => path.into(),
        _ => panic!(
            "{variable} is not set. Say which programs to compare, and where the tapes are:\n\
             REPLAY=path TRACE=path TAPES=tapes cargo test --release"
        ),
    }
}

pub struct Programs {
    replay: PathBuf,
    trace: PathBuf,
}

impl Programs {
    pub fn from_environment() -> Programs {
        Programs {
            replay: path_from("REPLAY"),
            trace: path_from("TRACE"),
        }
    }

    /// Both programs have to write what the library writes. Hands back the trace.
    pub fn compare(&self, name: &str, tape: &[u8]) -> String {
        let trace = trace(tape);
        assert_same(name, "replay", &replay(tape), &run(&self.replay, tape));
        assert_same(name, "trace", &trace, &run(&self.trace, tape));
        trace
    }
}

pub fn tape_of(name: &str, text: &str) -> Vec<u8> {
    let mut tape = Vec::new();
    if let Err(error) = text::assemble(text.as_bytes(), &mut tape) {
        panic!("{name}: {error}");
    }
    tape
}

pub fn replay(tape: &[u8]) -> String {
    let mut lines = Vec::new();
    report::replay(tape, &mut lines).expect("a vector takes every write");
    String::from_utf8(lines).expect("lines of text")
}

pub fn trace(tape: &[u8]) -> String {
    let mut lines = Vec::new();
    report::trace(tape, &mut lines).expect("a vector takes every write");
    String::from_utf8(lines).expect("lines of text")
}

fn run(program: &Path, tape: &[u8]) -> String {
    let mut child = Command::new(program)
        .stdin(Stdio::piped())
        .stdout(Stdio::piped())
        .spawn()
        .unwrap_or_else(|error| panic!("{}: {error}", program.display()));
    let mut input = child.stdin.take().expect("a piped input");
    let output = thread::scope(|scope| {
        scope.spawn(move || {
            // A program needn't read on after a bad record, so a broken pipe is no failure.
            let _ = input.write_all(tape);
        });
        child.wait_with_output().expect("the program's output")
    });
    let status = output.status;
    assert!(status.success(), "{}: {status}", program.display());
    // What isn't text can't be equal to this library's lines, so nothing is lost.
    String::from_utf8_lossy(&output.stdout).into_owned()
}

/// Panics with the first line that differs.
pub fn assert_same(name: &str, what: &str, expected: &str, found: &str) {
    if expected == found {
        return;
    }
    let expected: Vec<&str> = expected.split_inclusive('\n').collect();
    let found: Vec<&str> = found.split_inclusive('\n').collect();
    let mut index = 0;
    while expected.get(index) == found.get(index) {
        index += 1;
    }
    panic!(
        "{name}, {what}, line {}\n  expected {:?}\n  found    {:?}",
        index + 1,
        expected.get(index).unwrap_or(&"nothing more"),
        found.get(index).unwrap_or(&"nothing more")
    );
}
