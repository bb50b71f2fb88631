//! Playing a tape: the lines of `replay`, and those of `trace`, which show every byte.

use crate::hex;
use crate::refusal::Refusal;
use crate::session::{Event, Fed, Returned, Session, Urb, LEAST_HEADER, LEAST_REPLY, LEAST_WORK};
use crate::tape::{self, Completion, IsoCompletion, Item, Reader, Record};
use crate::wire::{DESCRIPTOR_SIZE, HEADER_SIZE, USBIP_DIR_OUT};
use std::io::{self, Read, Write};

/// Plays the tape and writes what happened.
pub fn replay(tape: impl Read, output: impl Write) -> io::Result<()> {
    Player::new(output, Detail::Lines).play(tape)
}

/// As `replay`, and after each act the bytes it read, wrote and kept.
pub fn trace(tape: impl Read, output: impl Write) -> io::Result<()> {
    Player::new(output, Detail::Bytes).play(tape)
}

#[derive(Clone, Copy, PartialEq, Eq)]
enum Detail {
    Lines,
    Bytes,
}

struct Player<W> {
    session: Session,
    work: Vec<u8>,
    reply: Vec<u8>,
    output: W,
    detail: Detail,
}

impl<W: Write> Player<W> {
    fn new(output: W, detail: Detail) -> Player<W> {
        let (session, _) = Session::open(tape::table());
        Player {
            session,
            work: vec![0; LEAST_WORK],
            reply: vec![0; LEAST_REPLY],
            output,
            detail,
        }
    }

    fn play(&mut self, tape: impl Read) -> io::Result<()> {
        let mut reader = Reader::new(tape);
        loop {
            match reader.read_item()? {
                Item::Record(record) => self.act(&record)?,
                Item::Bad(_) => {
                    writeln!(self.output, "bad tape")?;
                    break;
                }
                Item::End => break,
            }
        }
        self.write_end()?;
        self.output.flush()
    }

    fn act(&mut self, record: &Record) -> io::Result<()> {
        match record {
            Record::Stream(piece) => self.feed(piece),
            Record::Complete(completion) => self.complete(completion),
            Record::CompleteIso(completion) => self.complete_iso(completion),
            Record::Close => self.close(),
        }
    }

    /// Feeds the piece until it is used up or the session closed.
    fn feed(&mut self, mut piece: &[u8]) -> io::Result<()> {
        while !piece.is_empty() {
            // A tape has no times: all its pieces come at 0.
            let fed = self.session.feed(piece, &mut self.work, &mut self.reply, 0);
            self.write_event(&fed.event)?;
            if self.detail == Detail::Bytes {
                self.write_fed(&fed)?;
            }
            if self.session.is_closed() {
                break;
            }
            piece = &piece[fed.consumed..];
        }
        Ok(())
    }

    fn complete(&mut self, completion: &Completion) -> io::Result<()> {
        let &Completion {
            ticket,
            status,
            actual_length,
        } = completion;
        let data = [0; tape::DEVICE_DATA_SIZE];
        let mut header = [0; LEAST_HEADER];
        let result = self
            .session
            .complete(ticket, status, actual_length, &data, &mut header);
        self.write_return(ticket, actual_length, result)?;
        self.write_header(result, &header[..HEADER_SIZE])
    }

    fn complete_iso(&mut self, completion: &IsoCompletion) -> io::Result<()> {
        let &IsoCompletion {
            ticket,
            status,
            ref results,
        } = completion;
        let total = completion.total();
        let data = [0; tape::DEVICE_DATA_SIZE];
        let mut header = [0; LEAST_HEADER];
        let result = self
            .session
            .complete_iso(ticket, status, total, results, &data, &mut header);
        self.write_return(ticket, total, result)?;
        let written = HEADER_SIZE + results.len() * DESCRIPTOR_SIZE;
        self.write_header(result, &header[..written])
    }

    fn write_return(
        &mut self,
        ticket: u64,
        actual_length: u32,
        result: Result<Returned, Refusal>,
    ) -> io::Result<()> {
        match result {
            Ok(Returned { status, .. }) => {
                writeln!(self.output, "return {ticket} {status} {actual_length}")
            }
            Err(refusal) => writeln!(self.output, "refused {}", refusal.number()),
        }
    }

    fn write_header(
        &mut self,
        result: Result<Returned, Refusal>,
        written: &[u8],
    ) -> io::Result<()> {
        match result {
            _ if self.detail == Detail::Lines => Ok(()),
            Ok(Returned { length, .. }) => {
                writeln!(self.output, "header {length} {}", hex::encode(written))
            }
            Err(_) => writeln!(self.output, "header 0 -"),
        }
    }

    fn close(&mut self) -> io::Result<()> {
        match self.session.close() {
            Ok(dropped) => {
                writeln!(self.output, "closed")?;
                self.write_dropped(&dropped)
            }
            Err(refusal) => writeln!(self.output, "refused {}", refusal.number()),
        }
    }

    fn write_event(&mut self, event: &Event) -> io::Result<()> {
        let output = &mut self.output;
        match event {
            Event::Hungry => Ok(()),
            Event::List => writeln!(output, "list"),
            Event::Import { status } => writeln!(output, "import {status}"),
            Event::Accepted(urb) => writeln!(output, "submit {} {}", urb.ticket, urb.seqnum),
            Event::RefusedSubmit { seqnum, status } => writeln!(output, "answer {seqnum} {status}"),
            Event::Unlink { seqnum, status, .. } => writeln!(output, "unlink {seqnum} {status}"),
            Event::Broken {
                reason,
                offset,
                dropped,
            } => {
                writeln!(output, "broken {} at {offset}", reason.number())?;
                self.write_dropped(dropped)
            }
            Event::Refused(refusal) => writeln!(output, "refused {}", refusal.number()),
        }
    }

    fn write_dropped(&mut self, tickets: &[u64]) -> io::Result<()> {
        for ticket in tickets {
            writeln!(self.output, "dropped {ticket}")?;
        }
        Ok(())
    }

    fn write_fed(&mut self, fed: &Fed) -> io::Result<()> {
        let reply = hex_or_dash(&self.reply[..fed.length]);
        writeln!(self.output, "feed {} {} {reply}", fed.consumed, fed.length)?;
        match &fed.event {
            Event::Accepted(urb) => self.write_record(urb),
            Event::Unlink { removed, .. } => match removed {
                Some(ticket) => writeln!(self.output, "removed {ticket}"),
                None => writeln!(self.output, "removed -"),
            },
            _ => Ok(()),
        }
    }

    fn write_record(&mut self, urb: &Urb) -> io::Result<()> {
        let numbers = [
            urb.seqnum,
            urb.direction,
            urb.ep,
            urb.transfer_flags,
            urb.transfer_buffer_length,
            urb.start_frame,
            urb.number_of_packets,
            urb.interval,
        ];
        write!(self.output, "record {}", urb.ticket)?;
        for number in numbers {
            write!(self.output, " {number}")?;
        }
        writeln!(self.output, " {}", hex::encode(&urb.setup))?;
        let data = match urb.direction {
            USBIP_DIR_OUT => &self.work[..urb.transfer_buffer_length as usize],
            _ => &[],
        };
        writeln!(self.output, "data {}", hex_or_dash(data))?;
        self.write_packets(urb)
    }

    fn write_packets(&mut self, urb: &Urb) -> io::Result<()> {
        if !urb.is_isochronous() {
            return Ok(());
        }
        write!(self.output, "packets")?;
        for packet in &urb.packets {
            write!(self.output, " {} {}", packet.offset, packet.length)?;
        }
        writeln!(self.output)
    }

    fn write_end(&mut self) -> io::Result<()> {
        let numbers = self.session.numbers();
        writeln!(
            self.output,
            "end {} {} {} {} {}",
            numbers.accepted, numbers.pending, numbers.returned, numbers.unlinked, numbers.dropped
        )
    }
}

fn hex_or_dash(bytes: &[u8]) -> String {
    if bytes.is_empty() {
        "-".to_string()
    } else {
        hex::encode(bytes)
    }
}

#[cfg(test)]
mod tests {
    use super::*;
    use crate::capture::{self, bytes};
    use crate::packets::PacketResult;
    use crate::wire::{op_req_devlist, op_req_import_of};

    fn played(play: fn(&[u8], &mut Vec<u8>) -> io::Result<()>, tape: &[u8]) -> String {
        let mut lines = Vec::new();
        play(tape, &mut lines).unwrap();
        String::from_utf8(lines).unwrap()
    }

    fn replayed(tape: &[u8]) -> String {
        played(|tape, output| replay(tape, output), tape)
    }

    fn traced(tape: &[u8]) -> String {
        played(|tape, output| trace(tape, output), tape)
    }

    fn tape_of(records: &[Record]) -> Vec<u8> {
        let mut tape = Vec::new();
        for record in records {
            record.write(&mut tape).unwrap();
        }
        tape
    }

    fn sample() -> Vec<u8> {
        tape_of(&[
            Record::Stream(op_req_import_of("1-1")),
            Record::Stream(bytes(capture::CMD_INTR_IN)),
            Record::Complete(Completion {
                ticket: 1,
                status: 0,
                actual_length: 64,
            }),
            Record::Close,
        ])
    }

    #[test]
    fn the_papers_sample() {
        assert_eq!(
            replayed(&sample()),
            "import 0\nsubmit 1 3333\nreturn 1 0 64\nclosed\nend 1 0 1 0 0\n"
        );
    }

    #[test]
    fn the_sample_with_every_byte() {
        let mut device = vec![0; 312];
        device[..9].copy_from_slice(b"/deck/1-1");
        device[256..259].copy_from_slice(b"1-1");
        device[288 + 3] = 1;
        device[292 + 3] = 15;
        let expected = format!(
            "import 0\n\
             feed 40 320 0111000300000000{}\n\
             submit 1 3333\n\
             feed 48 0 -\n\
             record 1 3333 1 1 512 64 4294967295 0 4 0000000000000000\n\
             data -\n\
             return 1 0 64\n\
             header 112 {}\n\
             closed\n\
             end 1 0 1 0 0\n",
            hex::encode(&device),
            capture::RET_INTR_IN.replace(' ', "")
        );
        assert_eq!(traced(&sample()), expected);
    }

    #[test]
    fn an_isochronous_completion_with_every_byte() {
        let submit = "00000001 00000007 0001000f 00000001 00000001 00000000 00000064 00000005 00000001 00000000 00000000 00000000";
        let descriptor = "0000000a 00000014 00000000 00000000";
        let results = vec![PacketResult {
            actual_length: 19,
            status: -71,
        }];
        let tape = tape_of(&[
            Record::Stream(op_req_import_of("1-1")),
            Record::Stream(bytes(&format!("{submit} {descriptor}"))),
            Record::CompleteIso(IsoCompletion {
                ticket: 1,
                status: 0,
                results,
            }),
        ]);
        let header = "00000003 00000007 00000000 00000000 00000000 00000000 00000013 00000005 00000001 00000001 00000000 00000000";
        let sent = "0000000a 00000014 00000013 ffffffb9";
        let expected = format!(
            "submit 1 7\n\
             feed 64 0 -\n\
             record 1 7 1 1 0 100 5 1 0 0000000000000000\n\
             data -\n\
             packets 10 20\n\
             return 1 0 19\n\
             header 83 {}\n\
             end 1 0 1 0 0\n",
            format!("{header}{sent}").replace(' ', "")
        );
        assert!(traced(&tape).ends_with(&expected), "{}", traced(&tape));
        assert_eq!(
            replayed(&tape),
            "import 0\nsubmit 1 7\nreturn 1 0 19\nend 1 0 1 0 0\n"
        );
    }

    #[test]
    fn an_empty_tape() {
        assert_eq!(replayed(b""), "end 0 0 0 0 0\n");
        assert_eq!(traced(b""), "end 0 0 0 0 0\n");
    }

    #[test]
    fn bad_tape_leaves_urbs_pending() {
        let tape = sample();
        let cut = tape.len() - 3;
        assert_eq!(
            replayed(&tape[..cut]),
            "import 0\nsubmit 1 3333\nbad tape\nend 1 1 0 0 0\n"
        );
    }

    #[test]
    fn a_closed_session_is_fed_once_a_record() {
        let requests = Record::Stream(op_req_devlist().repeat(3));
        let empty = Record::Stream(vec![]);
        let tape = tape_of(&[requests.clone(), empty, requests, Record::Close]);
        assert_eq!(
            replayed(&tape),
            "list\nrefused 3\nrefused 3\nend 0 0 0 0 0\n"
        );
        assert!(traced(&tape).ends_with("refused 3\nfeed 0 0 -\nrefused 3\nend 0 0 0 0 0\n"));
    }
}
