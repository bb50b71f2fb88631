//! When the box says no: the numbers of refusals and breaks, and the statuses of answers.

/// An act that is turned down. Nothing changes, except that a refused open hands back a closed
/// session.
#[derive(Clone, Copy, Debug, PartialEq, Eq)]
#[repr(u8)]
pub enum Refusal {
    SmallBuffer = 1,
    Table = 2,
    Closed = 3,
    NotPending = 4,
    PositiveStatus = 5,
    /// The completion doesn't fit its URB.
    Misfit = 6,
    ShortData = 7,
}

/// A message that can't be answered; it closes the session.
#[derive(Clone, Copy, Debug, PartialEq, Eq)]
#[repr(u8)]
pub enum Break {
    Version = 10,
    Code = 11,
    Command = 12,
    Direction = 13,
    TransferBufferLength = 14,
    NumberOfPackets = 15,
    Seqnum = 16,
    Padding = 17,
    Devid = 18,
}

impl Refusal {
    pub fn number(self) -> u8 {
        self as u8
    }
}

impl Break {
    pub fn number(self) -> u8 {
        self as u8
    }
}

// Errno numbers are Linux's; a status is the negative one.
pub const ENOMEM: i32 = 12;
pub const ENODEV: i32 = 19;
pub const EINVAL: i32 = 22;
pub const ECONNRESET: i32 = 104;
pub const EREMOTEIO: i32 = 121;
