//! What is timed: the same messages, or the same reply, again and again. A round's answer goes into a checksum, so that
//! none can be left out.

use crate::exporter::Exporter;
use crate::message;
use rimemaple::{HEADER_ROOM, MAX_PACKETS, REPLY_LEN, WORK_LEN};
use std::hint::black_box;

pub enum Rounds {
    /// A feed of the next piece of a message.
    Pieces { message: Vec<u8>, size: usize },
    /// A submit and its completion.
    Exchanges { submit: Vec<u8>, data: Vec<u8> },
    /// An isochronous submit of all the packets that there can be, and its completion.
    Packets { submit: Vec<u8>, data: Vec<u8> },
    /// A completion of a ticket above those that are pending: refused, so nothing changes.
    Missed,
    /// A submit and its unlink.
    Unlinks { submit: Vec<u8>, unlink: Vec<u8> },
    /// A sending step.
    Parts {
        data: Vec<u8>,
        packets: usize,
        most: usize,
    },
}

#[derive(PartialEq, Eq)]
pub struct Buffers {
    work: Vec<u8>,
    reply: Vec<u8>,
    header: Vec<u8>,
}

impl Buffers {
    pub fn new() -> Buffers {
        Buffers {
            work: vec![0; WORK_LEN],
            reply: vec![0; REPLY_LEN],
            header: vec![0; HEADER_ROOM],
        }
    }
}

/// The checksum of so many rounds, with so many URBs pending all the time.
pub fn run<E: Exporter>(rounds: &Rounds, pending: u32, count: u64, b: &mut Buffers) -> u64 {
    let session: E = attached(pending, b);
    match rounds {
        Rounds::Pieces { message, size } => pieces(session, count, message, *size, b),
        Rounds::Exchanges { submit, data } => exchanges(session, count, submit, data, b),
        Rounds::Packets { submit, data } => packets(session, count, submit, data, b),
        Rounds::Missed => missed(session, count, u64::from(pending) + 1, b),
        Rounds::Unlinks { submit, unlink } => unlinks(session, count, submit, unlink, b),
        Rounds::Parts {
            data,
            packets,
            most,
        } => parts::<E>(count, data, *packets, *most, b),
    }
}

fn attached<E: Exporter>(pending: u32, b: &mut Buffers) -> E {
    let mut session = E::open();
    session.feed(&message::import(), &mut b.work, &mut b.reply);
    for place in 0..pending {
        let fed = session.feed(&message::pending_submit(place), &mut b.work, &mut b.reply);
        assert!(fed.ticket.is_some());
    }
    session
}

fn pieces(
    mut session: impl Exporter,
    count: u64,
    message: &[u8],
    size: usize,
    b: &mut Buffers,
) -> u64 {
    let mut sum = 0;
    let mut at: usize = 0;
    for _ in 0..count {
        let end = message.len().min(at.saturating_add(size));
        let fed = session.feed(black_box(&message[at..end]), &mut b.work, &mut b.reply);
        sum += fed.consumed + fed.length;
        at = if end == message.len() { 0 } else { end };
    }
    sum as u64
}

fn exchanges(
    mut session: impl Exporter,
    count: u64,
    submit: &[u8],
    data: &[u8],
    b: &mut Buffers,
) -> u64 {
    let actual = data.len() as u32;
    let mut sum = 0;
    for _ in 0..count {
        let fed = session.feed(black_box(submit), &mut b.work, &mut b.reply);
        let ticket = fed.ticket.expect("the submit is accepted");
        sum += session.complete(ticket, actual, black_box(data), &mut b.header);
    }
    sum
}

fn packets<E: Exporter>(
    mut session: E,
    count: u64,
    submit: &[u8],
    data: &[u8],
    b: &mut Buffers,
) -> u64 {
    let results: Vec<E::Result> = (0..MAX_PACKETS)
        .map(|_| E::result(message::PACKET_LEN))
        .collect();
    let total = data.len() as u32;
    let mut sum = 0;
    for _ in 0..count {
        let fed = session.feed(black_box(submit), &mut b.work, &mut b.reply);
        let ticket = fed.ticket.expect("the submit is accepted");
        let (results, data) = (black_box(&results), black_box(data));
        sum += session.complete_iso(ticket, total, results, data, &mut b.header);
    }
    sum
}

fn missed(mut session: impl Exporter, count: u64, ticket: u64, b: &mut Buffers) -> u64 {
    let refusals = (0..count).map(|_| session.refuses(black_box(ticket), &mut b.header));
    refusals.sum()
}

fn unlinks(
    mut session: impl Exporter,
    count: u64,
    submit: &[u8],
    unlink: &[u8],
    b: &mut Buffers,
) -> u64 {
    let mut sum = 0;
    for _ in 0..count {
        let fed = session.feed(black_box(submit), &mut b.work, &mut b.reply);
        sum += fed.ticket.expect("the submit is accepted");
        let fed = session.feed(black_box(unlink), &mut b.work, &mut b.reply);
        sum += fed.length as u64;
    }
    sum
}

fn parts<E: Exporter>(
    count: u64,
    data: &[u8],
    packets: usize,
    most: usize,
    b: &mut Buffers,
) -> u64 {
    let mut sum = 0;
    let mut sent = 0;
    for _ in 0..count {
        let part = E::part(
            black_box(&b.header),
            black_box(data),
            data.len(),
            packets,
            sent,
            most,
        );
        let length = black_box(part).len();
        sum += length as u64;
        sent = if length == 0 { 0 } else { sent + length };
    }
    sum
}
