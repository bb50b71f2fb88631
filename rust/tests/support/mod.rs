//! A host with one camera, and what a client sends to it.

// Each test uses a part of this.
#![allow(dead_code)]

use rimemaple::{Device, Event, Fed, Refusal, Session, Table, REPLY_LEN, WORK_LEN};

/// The camera's busnum 1 and devnum 15.
pub const DEVID: u32 = 0x0001_000f;
pub const BUSID: &str = "1-1";

/// A byte that no reply is made of, to see what wasn't written.
pub const UNTOUCHED: u8 = 0xa5;

pub struct Host {
    pub session: Session,
    pub work: Vec<u8>,
    pub reply: Vec<u8>,
}

impl Host {
    pub fn waiting() -> Host {
        let camera = Device::new("/deck/1-1", BUSID, 1, 15).expect("the names fit");
        let table = Table::new(&[camera]).expect("the device fits");
        Host {
            session: Session::open(&table).expect("the table is good"),
            work: vec![UNTOUCHED; WORK_LEN],
            reply: vec![UNTOUCHED; REPLY_LEN],
        }
    }

    pub fn attached() -> Host {
        let mut host = Host::waiting();
        assert_eq!(host.event(&import(BUSID)), Event::Import { status: 0 });
        host
    }

    /// Attached, with the seqnums 1 to `count` pending under the tickets 1 to `count`.
    pub fn with_pending(count: u32) -> Host {
        let mut host = Host::attached();
        for seqnum in 1..=count {
            assert_eq!(host.submit(&submit(seqnum, 64)), u64::from(seqnum));
        }
        host
    }

    pub fn feed(&mut self, piece: &[u8]) -> Result<Fed, Refusal> {
        self.feed_at(0, piece)
    }

    pub fn feed_at(&mut self, time: u32, piece: &[u8]) -> Result<Fed, Refusal> {
        let (work, reply) = (&mut self.work, &mut self.reply);
        self.session.feed(piece, work, reply, time)
    }

    /// The event of a piece that is used up.
    pub fn event(&mut self, piece: &[u8]) -> Event {
        let fed = self.feed(piece).expect("the feed isn't refused");
        assert_eq!(fed.consumed, piece.len());
        fed.event
    }

    /// The ticket of an accepted submit.
    pub fn submit(&mut self, message: &[u8]) -> u64 {
        match self.event(message) {
            Event::Submit { ticket, .. } => ticket,
            other => panic!("{other}"),
        }
    }
}

/// OP_REQ_DEVLIST.
pub fn list() -> Vec<u8> {
    vec![0x01, 0x11, 0x80, 0x05, 0, 0, 0, 0]
}

/// OP_REQ_IMPORT.
pub fn import(busid: &str) -> Vec<u8> {
    let mut request = vec![0x01, 0x11, 0x80, 0x03, 0, 0, 0, 0];
    request.extend(busid.as_bytes());
    request.resize(40, 0);
    request
}

/// The header of a message, from its first words.
pub fn header(words: &[u32]) -> Vec<u8> {
    let mut header: Vec<u8> = words.iter().flat_map(|word| word.to_be_bytes()).collect();
    header.resize(48, 0);
    header
}

/// USBIP_CMD_SUBMIT for IN.
pub fn submit(seqnum: u32, length: u32) -> Vec<u8> {
    header(&[1, seqnum, DEVID, 1, 1, 0, length])
}

/// USBIP_CMD_SUBMIT for OUT, with its data.
pub fn submit_out(seqnum: u32, data: &[u8]) -> Vec<u8> {
    let mut message = header(&[1, seqnum, DEVID, 0, 2, 0, data.len() as u32]);
    message.extend(data);
    message
}

/// USBIP_CMD_SUBMIT for isochronous IN: offset and length of each packet.
pub fn submit_iso(seqnum: u32, length: u32, packets: &[(u32, u32)]) -> Vec<u8> {
    let count = packets.len() as u32;
    let mut message = header(&[1, seqnum, DEVID, 1, 3, 0, length, 0, count]);
    message.extend(descriptors(packets));
    message
}

/// USBIP_CMD_SUBMIT for isochronous OUT, with its data, of which each packet is the next so many bytes.
pub fn submit_iso_out(seqnum: u32, data: &[u8], lengths: &[u32]) -> Vec<u8> {
    let (length, count) = (data.len() as u32, lengths.len() as u32);
    let ends = lengths.iter().scan(0, |end, &length| {
        *end += length;
        Some((*end - length, length))
    });
    let mut message = header(&[1, seqnum, DEVID, 0, 4, 0, length, 0, count]);
    message.extend(data);
    message.extend(descriptors(&ends.collect::<Vec<_>>()));
    message
}

/// A request's descriptors. Their last two fields have no effect.
fn descriptors(packets: &[(u32, u32)]) -> Vec<u8> {
    let fields = |&(offset, length): &(u32, u32)| [offset, length, 0x0102_0304, 0x0506_0708];
    packets
        .iter()
        .flat_map(fields)
        .flat_map(u32::to_be_bytes)
        .collect()
}

/// A RET_SUBMIT's descriptors: offset, length, actual length and status of each packet.
pub fn returned_descriptors(packets: &[(u32, u32, u32, i32)]) -> Vec<u8> {
    let fields = |&(offset, length, actual, status): &(u32, u32, u32, i32)| {
        [offset, length, actual, status as u32]
    };
    packets
        .iter()
        .flat_map(fields)
        .flat_map(u32::to_be_bytes)
        .collect()
}

/// USBIP_CMD_UNLINK.
pub fn unlink(seqnum: u32, unlink_seqnum: u32) -> Vec<u8> {
    header(&[2, seqnum, DEVID, 0, 0, unlink_seqnum])
}
