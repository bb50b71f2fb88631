//! The exporting end of USB/IP 1.1.1 for one connection, read from the papers a second time.
//!
//! It exists to be compared with another implementation, so it is plain: whole messages, ordinary
//! vectors, and one copy of every reply.

pub mod capture;
pub mod causes;
pub mod generate;
pub mod hex;
pub mod packets;
pub mod random;
pub mod refusal;
pub mod report;
pub mod sending;
pub mod session;
pub mod table;
pub mod tape;
pub mod text;
pub mod wire;
