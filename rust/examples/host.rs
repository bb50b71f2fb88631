//! The host of examples/host.c in Rust: one connection, which is its standard input and output.
//!
//!     socat TCP-LISTEN:3240,reuseaddr,fork EXEC:target/release/examples/host
//!
//! Its device is a camera that numbers its pictures and can't stop an exposure: a ticket that was cancelled meanwhile is completed
//! like any other, and refused.

use rimemaple::{part, Device, Event, PacketResult, Packets, Refusal, Returned, Session, Table};
use rimemaple::{DESCRIPTOR_LEN, HEADER_LEN, HEADER_ROOM, MAX_PENDING, REPLY_LEN, WORK_LEN};
use std::collections::VecDeque;
use std::error::Error;
use std::io::{self, Read, Write};

/// What the device knows of a URB that it has started.
struct Exposure {
    ticket: u64,
    is_in: bool,
    length: u32,
    /// Of an isochronous URB, else none.
    iso: Packets,
}

struct Host {
    session: Session,
    /// OUT data stands in `work` until the next feed; a camera has no use for it.
    work: Vec<u8>,
    reply: Vec<u8>,
    /// In the order in which they came.
    started: VecDeque<Exposure>,
    pictures: u32,
    client: io::Stdout,
}

impl Host {
    fn new(table: &Table) -> Result<Host, Box<dyn Error>> {
        Ok(Host {
            session: Session::open(table)?,
            work: vec![0; WORK_LEN],
            reply: vec![0; REPLY_LEN],
            started: VecDeque::new(),
            pictures: 0,
            client: io::stdout(),
        })
    }

    /// A reply goes out whole before the next one starts: the header, `n` bytes of the payload, and the descriptors of
    /// the packets, which stand behind the header.
    fn send_reply(
        &mut self,
        header: &[u8],
        payload: &[u8],
        n: usize,
        packets: usize,
    ) -> io::Result<()> {
        let mut sent = 0;
        loop {
            let part = part(header, payload, n, packets, sent, 1460);
            if part.is_empty() {
                return self.client.flush();
            }
            self.client.write_all(part)?;
            sent += part.len();
        }
    }

    /// A picture with its number in front.
    fn expose(&mut self, length: u32) -> Vec<u8> {
        let mut picture = vec![self.pictures as u8; length as usize];
        if let Some(number) = picture.first_mut() {
            self.pictures += 1;
            *number = self.pictures as u8;
        }
        picture
    }

    /// Each packet of an isochronous URB is transferred whole. Of an IN the picture has their bytes without gaps.
    fn complete(
        &mut self,
        e: &Exposure,
        picture: &[u8],
        header: &mut [u8],
    ) -> Result<Returned, Refusal> {
        let whole = |length| PacketResult {
            actual: length,
            status: 0,
        };
        let results: Vec<PacketResult> = e.iso.iter().map(|packet| whole(packet.length)).collect();
        let total = results.iter().map(|result| result.actual).sum();
        match results.len() {
            0 => self
                .session
                .complete(e.ticket, 0, e.length, picture, header),
            _ => self
                .session
                .complete_iso(e.ticket, 0, total, &results, picture, header),
        }
    }

    /// The device is done with the first URB that it started: a picture for IN.
    fn finish(&mut self, e: Exposure) -> io::Result<()> {
        let picture = if e.is_in {
            self.expose(e.length)
        } else {
            Vec::new()
        };
        let (mut header, packets) = ([0; HEADER_ROOM], e.iso.len());
        match self.complete(&e, &picture, &mut header) {
            Ok(returned) => {
                let n = returned.length as usize - HEADER_LEN - packets * DESCRIPTOR_LEN;
                self.send_reply(&header, &picture, n, packets)
            }
            Err(refusal) => {
                eprintln!("ticket {}: {refusal}: its picture is dropped", e.ticket);
                Ok(())
            }
        }
    }

    /// So many of the URBs that were started may go on; the others are finished first.
    fn catch_up(&mut self, left: usize) -> io::Result<()> {
        while self.started.len() > left {
            if let Some(e) = self.started.pop_front() {
                self.finish(e)?;
            }
        }
        Ok(())
    }

    /// All of a piece, message by message.
    fn feed(&mut self, mut piece: &[u8]) -> Result<(), Box<dyn Error>> {
        while !piece.is_empty() {
            // Nothing waits here, so that nothing is asked of the time.
            let (work, reply) = (&mut self.work, &mut self.reply);
            let fed = self.session.feed(piece, work, reply, 0)?;
            piece = &piece[fed.consumed..];
            match fed.event {
                Event::Submit {
                    ticket,
                    transfer,
                    iso,
                    ..
                } => self.started.push_back(Exposure {
                    ticket,
                    is_in: transfer.is_in(),
                    length: transfer.length,
                    iso,
                }),
                Event::Break { fault, .. } => return Err(Box::new(fault)),
                _ => {
                    self.client.write_all(&self.reply[..fed.length])?;
                    self.client.flush()?;
                }
            }
            self.catch_up(MAX_PENDING - 1)?;
        }
        Ok(())
    }

    fn serve(&mut self) -> Result<(), Box<dyn Error>> {
        let mut piece = [0; 4096];
        loop {
            let n = io::stdin().read(&mut piece)?;
            if n == 0 {
                return Ok(());
            }
            self.feed(&piece[..n])?;
            self.catch_up(0)?;
        }
    }
}

fn main() -> Result<(), Box<dyn Error>> {
    let camera = Device::new("/deck/1-1", "1-1", 1, 15)?;
    let mut host = Host::new(&Table::new(&[camera])?)?;
    if let Err(end) = host.serve() {
        eprintln!("the session ended: {end}");
    }
    host.session.close().ok();
    let n = host.session.numbers();
    eprintln!(
        "accepted {}, returned {}, unlinked {}, dropped {}",
        n.accepted, n.returned, n.unlinked, n.dropped
    );
    Ok(())
}
