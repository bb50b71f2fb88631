//! From tape to text.

use super::{items, message, packets};
use crate::session::MAX_TRANSFER_BUFFER_LENGTH;
use crate::tape::{Completion, IsoCompletion, Item, Reader, Record};
use crate::wire::{
    be16, Command, DESCRIPTOR_SIZE, HEADER_SIZE, OP_COMMON_SIZE, OP_REQ_IMPORT, OP_REQ_IMPORT_SIZE,
};
use std::io::{self, Read, Write};
use std::mem;

/// Bytes of a bad tape that are shown at a time.
const CHUNK_SIZE: usize = 4_096;

/// Writes text that assembles to the same tape, good or bad.
pub fn dump(tape: impl Read, mut output: impl Write) -> io::Result<()> {
    let mut reader = Reader::new(tape);
    let mut stream = Stream::default();
    loop {
        match reader.read_item()? {
            Item::Record(Record::Stream(piece)) => stream.dump(&piece, &mut output)?,
            Item::Record(Record::Complete(completion)) => {
                dump_completion(&completion, &mut output)?
            }
            Item::Record(Record::CompleteIso(completion)) => {
                dump_iso_completion(&completion, &mut output)?
            }
            Item::Record(Record::Close) => writeln!(output, "close")?,
            Item::Bad(bytes) => {
                dump_raw(&bytes, &mut output)?;
                return dump_rest(reader.into_rest(), output);
            }
            Item::End => return output.flush(),
        }
    }
}

fn dump_completion(completion: &Completion, output: &mut impl Write) -> io::Result<()> {
    writeln!(
        output,
        "complete ticket={} status={} actual={}",
        completion.ticket, completion.status, completion.actual_length
    )
}

fn dump_iso_completion(completion: &IsoCompletion, output: &mut impl Write) -> io::Result<()> {
    write!(
        output,
        "complete-iso ticket={} status={}",
        completion.ticket, completion.status
    )?;
    for result in &completion.results {
        write!(output, " {}", packets::format_result(result))?;
    }
    writeln!(output)
}

fn dump_raw(bytes: &[u8], output: &mut impl Write) -> io::Result<()> {
    for line in items::lines(bytes) {
        writeln!(output, "raw {line}")?;
    }
    Ok(())
}

fn dump_rest(mut rest: impl Read, mut output: impl Write) -> io::Result<()> {
    loop {
        let mut chunk = Vec::new();
        rest.by_ref()
            .take(CHUNK_SIZE as u64)
            .read_to_end(&mut chunk)?;
        if chunk.is_empty() {
            return output.flush();
        }
        dump_raw(&chunk, &mut output)?;
    }
}

/// Where the stream's messages start and end, as far as a dump has to know.
#[derive(Default)]
struct Stream {
    attached: bool,
    /// The message in progress, without its body.
    head: Vec<u8>,
    /// OUT data still to come.
    data_left: usize,
    /// Bytes of packet descriptors still to come.
    descriptors_left: usize,
    /// What is in of a descriptor that is cut.
    descriptor: Vec<u8>,
}

impl Stream {
    fn dump(&mut self, mut piece: &[u8], output: &mut impl Write) -> io::Result<()> {
        let mut lines = Vec::new();
        while !piece.is_empty() {
            if self.data_left > 0 {
                let (data, rest) = piece.split_at(self.data_left.min(piece.len()));
                self.data_left -= data.len();
                lines.extend(item_lines("data", data));
                piece = rest;
            } else if self.descriptors_left > 0 {
                let (bytes, rest) = piece.split_at(self.descriptors_left.min(piece.len()));
                self.descriptors_left -= bytes.len();
                lines.extend(self.descriptor_lines(bytes));
                piece = rest;
            } else {
                let (head, rest) = piece.split_at(self.fill_head(piece));
                lines.extend(self.head_lines(head));
                piece = rest;
            }
        }
        write_record(&lines, output)
    }

    /// Whole descriptors as packets, and what is cut as bytes.
    fn descriptor_lines(&mut self, bytes: &[u8]) -> Vec<String> {
        let missing = (DESCRIPTOR_SIZE - self.descriptor.len()) % DESCRIPTOR_SIZE;
        let (first, bytes) = bytes.split_at(missing.min(bytes.len()));
        let mut lines = item_lines("bytes", first);
        self.descriptor.extend(first);
        if self.descriptor.len() == DESCRIPTOR_SIZE {
            let whole = packets::lines(&mem::take(&mut self.descriptor));
            lines.extend(whole.iter().map(|line| format!("# which ends: {line}")));
        }
        let (whole, last) = bytes.split_at(bytes.len() / DESCRIPTOR_SIZE * DESCRIPTOR_SIZE);
        lines.extend(packets::lines(whole));
        lines.extend(item_lines("bytes", last));
        self.descriptor.extend(last);
        lines
    }

    /// Adds to the head what the piece has of it, and tells how much that is.
    fn fill_head(&mut self, piece: &[u8]) -> usize {
        let mut used = 0;
        while self.head.len() < self.head_size() && used < piece.len() {
            let missing = self.head_size() - self.head.len();
            let end = piece.len().min(used + missing);
            self.head.extend(&piece[used..end]);
            used = end;
        }
        used
    }

    fn head_size(&self) -> usize {
        if self.attached {
            HEADER_SIZE
        } else if self.head.len() >= OP_COMMON_SIZE && be16(&self.head, 2) == OP_REQ_IMPORT {
            OP_REQ_IMPORT_SIZE
        } else {
            OP_COMMON_SIZE
        }
    }

    /// The lines for the bytes last added to the head.
    fn head_lines(&mut self, added: &[u8]) -> Vec<String> {
        if self.head.len() < self.head_size() {
            return item_lines("bytes", added);
        }
        let message = mem::take(&mut self.head);
        self.expect_after(&message);
        match message::format(&message) {
            Some(line) if added.len() == message.len() => vec![line],
            Some(line) => {
                let mut lines = item_lines("bytes", added);
                lines.push(format!("# which ends: {line}"));
                lines
            }
            None => item_lines("bytes", added),
        }
    }

    fn expect_after(&mut self, message: &[u8]) {
        self.attached |= message.len() == OP_REQ_IMPORT_SIZE;
        if message.len() != HEADER_SIZE {
            return;
        }
        if let Some(Command::Submit(submit)) = Command::read(message) {
            if submit.transfer_buffer_length <= MAX_TRANSFER_BUFFER_LENGTH {
                self.data_left = submit.data_size();
                self.descriptors_left = submit.body_size() - submit.data_size();
            }
        }
    }
}

fn item_lines(verb: &str, bytes: &[u8]) -> Vec<String> {
    let lines = items::lines(bytes);
    lines.iter().map(|line| format!("{verb} {line}")).collect()
}

fn write_record(lines: &[String], output: &mut impl Write) -> io::Result<()> {
    let Some((first, others)) = lines.split_first() else {
        return writeln!(output, "bytes");
    };
    writeln!(output, "{first}")?;
    for line in others {
        let sign = if line.starts_with('#') { "" } else { "+ " };
        writeln!(output, "{sign}{line}")?;
    }
    Ok(())
}
