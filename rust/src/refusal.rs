//! The ways in which the box says no, by their numbers.

use crate::sys;
use std::{error, fmt};

/// An act that isn't done: nothing changed, and no byte was written.
#[derive(Clone, Copy, Debug, PartialEq, Eq, Hash)]
pub struct Refusal(u32);

/// A fault of the client's stream, which closes the session.
#[derive(Clone, Copy, Debug, PartialEq, Eq, Hash)]
pub struct Fault(u32);

const REFUSALS: [(u32, &str); 7] = [
    (
        sys::SHORT_BUFFER,
        "work under 61952, reply under 8192 or header under 560 bytes",
    ),
    (sys::BAD_TABLE, "a table rule is broken"),
    (
        sys::SESSION_CLOSED,
        "feed, complete or close on a closed session",
    ),
    (sys::NOT_PENDING, "ticket not pending"),
    (sys::STATUS_ABOVE_0, "status above 0"),
    (sys::MISFIT, "the completion doesn't fit its URB"),
    (sys::SHORT_DATA, "IN, data shorter than actual length"),
];

const FAULTS: [(u32, &str); 9] = [
    (sys::BAD_VERSION, "version not 0x0111"),
    (sys::BAD_CODE, "code not 0x8005 or 0x8003"),
    (sys::BAD_COMMAND, "command not 1 or 2"),
    (sys::BAD_DIRECTION, "direction not 0 or 1"),
    (sys::BAD_LENGTH, "transfer_buffer_length above 61440"),
    (
        sys::BAD_PACKETS,
        "number_of_packets not 0 to 32 nor 0xffffffff",
    ),
    (sys::SEQNUM_PENDING, "submit's seqnum is pending"),
    (
        sys::DIRTY_PADDING,
        "request's status, or unlink's padding, not 0",
    ),
    (sys::BAD_DEVID, "unlink's devid isn't the attached device's"),
];

impl Refusal {
    /// A lent buffer is under its least size.
    pub const SHORT_BUFFER: Refusal = Refusal(sys::SHORT_BUFFER);
    /// The table breaks a rule.
    pub const BAD_TABLE: Refusal = Refusal(sys::BAD_TABLE);
    /// The session is closed.
    pub const SESSION_CLOSED: Refusal = Refusal(sys::SESSION_CLOSED);
    /// The ticket was cancelled, returned or dropped before, or never given.
    pub const NOT_PENDING: Refusal = Refusal(sys::NOT_PENDING);
    /// A completion's status is neither 0 nor a negative errno.
    pub const STATUS_ABOVE_0: Refusal = Refusal(sys::STATUS_ABOVE_0);
    /// The completion doesn't fit its URB: longer than the transfer, of the wrong kind, of another packet count, an
    /// actual length above its packet's, or a total that isn't their sum.
    pub const MISFIT: Refusal = Refusal(sys::MISFIT);
    /// An IN's payload is shorter than the actual length.
    pub const SHORT_DATA: Refusal = Refusal(sys::SHORT_DATA);

    /// Its number in the protocol's table.
    pub const fn number(self) -> u32 {
        self.0
    }
}

impl Fault {
    /// A request's version isn't 0x0111.
    pub const BAD_VERSION: Fault = Fault(sys::BAD_VERSION);
    /// A request is neither for the list nor for an import.
    pub const BAD_CODE: Fault = Fault(sys::BAD_CODE);
    /// A message is neither a submit nor an unlink.
    pub const BAD_COMMAND: Fault = Fault(sys::BAD_COMMAND);
    /// A submit is neither OUT nor IN.
    pub const BAD_DIRECTION: Fault = Fault(sys::BAD_DIRECTION);
    /// A submit is for a longer transfer than the box serves.
    pub const BAD_LENGTH: Fault = Fault(sys::BAD_LENGTH);
    /// A submit has more packets than the box serves.
    pub const BAD_PACKETS: Fault = Fault(sys::BAD_PACKETS);
    /// A submit has the seqnum of one that is pending.
    pub const SEQNUM_PENDING: Fault = Fault(sys::SEQNUM_PENDING);
    /// A request's status isn't 0, or an unlink's direction or ep isn't, or a byte behind its unlink_seqnum.
    pub const DIRTY_PADDING: Fault = Fault(sys::DIRTY_PADDING);
    /// An unlink is for another device than the attached one.
    pub const BAD_DEVID: Fault = Fault(sys::BAD_DEVID);

    /// Its number in the protocol's table.
    pub const fn number(self) -> u32 {
        self.0
    }

    /// As it prints, with the byte at which it stands.
    pub(crate) fn write_at(self, f: &mut fmt::Formatter, at: usize) -> fmt::Result {
        write!(f, "broken {} at {at}", self.0)?;
        write_words(f, self.0, &FAULTS)
    }
}

impl From<u32> for Refusal {
    fn from(number: u32) -> Refusal {
        Refusal(number)
    }
}

impl From<u32> for Fault {
    fn from(number: u32) -> Fault {
        Fault(number)
    }
}

impl fmt::Display for Refusal {
    fn fmt(&self, f: &mut fmt::Formatter) -> fmt::Result {
        write!(f, "refused {}", self.0)?;
        write_words(f, self.0, &REFUSALS)
    }
}

impl fmt::Display for Fault {
    fn fmt(&self, f: &mut fmt::Formatter) -> fmt::Result {
        write!(f, "broken {}", self.0)?;
        write_words(f, self.0, &FAULTS)
    }
}

impl error::Error for Refusal {}

impl error::Error for Fault {}

/// The words of a number, if the table has them.
fn write_words(f: &mut fmt::Formatter, number: u32, table: &[(u32, &str)]) -> fmt::Result {
    match table.iter().find(|row| row.0 == number) {
        Some((_, words)) => write!(f, ": {words}"),
        None => Ok(()),
    }
}
