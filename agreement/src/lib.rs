//! What the tests share: a session of the library beside one of `reference`, tables and messages to ask both about, and
//! a count of what was reached.

mod answers;
pub mod client;
pub mod pair;
pub mod reached;
pub mod tables;
