//! What a test reached, so that one that reaches too little fails.

use rimemaple::{Event, Fed, Refusal, HEADER_LEN};
use std::collections::BTreeMap;

#[derive(Default)]
pub struct Reached(BTreeMap<String, usize>);

impl Reached {
    pub fn add(&mut self, kind: impl Into<String>) {
        *self.0.entry(kind.into()).or_default() += 1;
    }

    pub fn total(&self) -> usize {
        self.0.values().sum()
    }

    /// Prints the counts and fails if one of the kinds was never reached, or another one was.
    pub fn expect_exactly(&self, kinds: &[impl AsRef<str>]) {
        for (kind, count) in &self.0 {
            println!("{count:8} {kind}");
        }
        let kinds: Vec<&str> = kinds.iter().map(AsRef::as_ref).collect();
        for kind in &kinds {
            assert!(self.0.contains_key(*kind), "never reached: {kind}");
        }
        for kind in self.0.keys() {
            assert!(kinds.contains(&kind.as_str()), "not expected: {kind}");
        }
    }
}

/// The kinds of a feed's answer.
pub const FEEDS: [&str; 31] = [
    "hungry",
    "list",
    "import 0",
    "import 1",
    "accepted",
    "accepted with packets",
    "answer -19",
    "answer -19 with packets",
    "answer -22",
    "answer -22 with packets",
    "answer -12",
    "answer -12 with packets",
    "unlink -104",
    "unlink 0",
    "break 10 at 0",
    "break 11 at 2",
    "break 12 at 0",
    "break 13 at 12",
    "break 14 at 24",
    "break 15 at 32",
    "break 16 at 4",
    "break 17 at 4",
    "break 17 at 12",
    "break 17 at 13 to 18",
    "break 17 at 19",
    "break 17 at 24",
    "break 17 at 25 to 46",
    "break 17 at 47",
    "break 18 at 8",
    "refused 1",
    "refused 3",
];

/// A break by number; of an unlink's padding, where the faulty byte stands, the first and the last byte of each part apart.
fn break_kind(number: u32, at: usize) -> String {
    match (number, at) {
        (17, 13..=18) => "break 17 at 13 to 18".to_string(),
        (17, 25..=46) => "break 17 at 25 to 46".to_string(),
        _ => format!("break {number} at {at}"),
    }
}

/// Which of them it is.
pub fn feed_kind(answer: &Result<Fed, Refusal>) -> String {
    match answer {
        Err(refusal) => format!("refused {}", refusal.number()),
        Ok(fed) => match fed.event {
            Event::Hungry => "hungry".to_string(),
            Event::List => "list".to_string(),
            Event::Import { status } => format!("import {status}"),
            Event::Submit { iso, .. } if iso.is_empty() => "accepted".to_string(),
            Event::Submit { .. } => "accepted with packets".to_string(),
            Event::Answer { status, .. } if fed.length == HEADER_LEN => format!("answer {status}"),
            Event::Answer { status, .. } => format!("answer {status} with packets"),
            Event::Unlink { status, .. } => format!("unlink {status}"),
            Event::Break { fault, at, .. } => break_kind(fault.number(), at),
        },
    }
}
