//! The cases that are timed.

use crate::message::{iso_in, iso_out, refused_iso, refused_submit, submit_in, submit_out, unlink};
use crate::rounds::Rounds;
use rimemaple::{MAX_PACKETS, MAX_TRANSFER};

pub struct Case {
    pub name: &'static str,
    /// How many URBs are pending: the case is run with each.
    pub pending: &'static [u32],
    pub rounds: Rounds,
}

const NONE: &[u32] = &[0];
const UP_TO_31: &[u32] = &[0, 1, 31];
/// With the one that is completed 1, 16 and 32.
const OTHERS: &[u32] = &[0, 15, 31];
const UP_TO_32: &[u32] = &[1, 16, 32];

/// A piece that is the whole message.
const WHOLE: usize = usize::MAX;

#[rustfmt::skip]
pub fn cases() -> Vec<Case> {
    let (header, out, iso) = (unlink(), refused_submit(MAX_TRANSFER), refused_iso());
    vec![
        case("hungry feed, empty piece", UP_TO_31, feeds(&header, 0)),
        case("feed of a header, 1 byte a piece", NONE, feeds(&header, 1)),
        case("feed of a header, 16 bytes a piece", NONE, feeds(&header, 16)),
        case("feed of a header whole (unlink of nothing)", UP_TO_31, feeds(&header, WHOLE)),
        case("feed of OUT of 16,384, 1,460 bytes a piece", NONE, feeds(&out, 1_460)),
        case("feed of OUT of 16,384, 4,096 bytes a piece", NONE, feeds(&out, 4_096)),
        case("feed of OUT of 16,384 whole (answered -22)", NONE, feeds(&out, WHOLE)),
        case("feed of 32 packets, 16 bytes a piece", NONE, feeds(&iso, 16)),
        case("feed of 32 packets whole (answered -22)", NONE, feeds(&iso, WHOLE)),
        case("OUT of 64, fed and completed", NONE, completed(submit_out, 64)),
        case("OUT of 16,384, fed and completed", NONE, completed(submit_out, MAX_TRANSFER)),
        case("IN of 64, fed and completed", OTHERS, completed(submit_in, 64)),
        case("IN of 16,384, fed and completed", NONE, completed(submit_in, MAX_TRANSFER)),
        case("IN of 32 packets, fed and completed", OTHERS, in_packets(iso_in())),
        case("OUT of 32 packets, fed and completed", NONE, in_packets(iso_out())),
        case("completion of none that is pending", UP_TO_32, Rounds::Missed),
        case("IN of 64, fed and unlinked (two feeds)", UP_TO_31, unlinked(64)),
        case("sending step, 1,460 of 16,432 bytes", NONE, sent(0, 1_460)),
        case("sending step, 1,460 of 16,944 bytes", NONE, sent(MAX_PACKETS, 1_460)),
    ]
}

fn case(name: &'static str, pending: &'static [u32], rounds: Rounds) -> Case {
    Case {
        name,
        pending,
        rounds,
    }
}

fn feeds(message: &[u8], size: usize) -> Rounds {
    let message = message.to_vec();
    Rounds::Pieces { message, size }
}

fn completed(submit: fn(usize) -> Vec<u8>, length: usize) -> Rounds {
    Rounds::Exchanges {
        submit: submit(length),
        data: vec![3; length],
    }
}

fn in_packets(submit: Vec<u8>) -> Rounds {
    let data = vec![3; MAX_TRANSFER];
    Rounds::Packets { submit, data }
}

fn unlinked(length: usize) -> Rounds {
    Rounds::Unlinks {
        submit: submit_in(length),
        unlink: unlink(),
    }
}

fn sent(packets: usize, most: usize) -> Rounds {
    let data = vec![3; MAX_TRANSFER];
    Rounds::Parts {
        data,
        packets,
        most,
    }
}
