//! Packets as words: `OFFSET+LENGTH` for a descriptor, and `ACTUAL/STATUS` for a result.

use super::fields::{number, Number};
use super::message::cut;
use crate::packets::PacketResult;
use crate::wire::{self, IsoPacketDescriptor, DESCRIPTOR_SIZE};

/// Characters after which packets go on in another line.
const LINE_WIDTH: usize = 64;

/// The descriptors that the words stand for, or the part of them.
pub fn parse(words: &[&str]) -> Result<Vec<u8>, String> {
    let last = words.last().and_then(|word| word.strip_prefix("part="));
    let (part, words) = match last {
        Some(range) => (Some(range), &words[..words.len() - 1]),
        None => (None, words),
    };
    let list: Vec<IsoPacketDescriptor> = words
        .iter()
        .map(|word| parse_descriptor(word).ok_or(format!("not a packet: {word}")))
        .collect::<Result<_, _>>()?;
    let bytes = wire::descriptors(&list);
    match part {
        Some(range) => cut(&bytes, range).ok_or(format!("no such part: {range}")),
        None => Ok(bytes),
    }
}

fn parse_descriptor(word: &str) -> Option<IsoPacketDescriptor> {
    let (place, result) = match word.split_once('/') {
        Some((place, result)) => (place, parse_result(result)?),
        None => (word, PacketResult::default()),
    };
    let (offset, length) = place.split_once('+')?;
    Some(IsoPacketDescriptor {
        offset: digits(offset)?,
        length: digits(length)?,
        actual_length: result.actual_length,
        status: result.status,
    })
}

/// The results that the words stand for.
pub fn parse_results(words: &[&str]) -> Result<Vec<PacketResult>, String> {
    let parse = |word: &&str| parse_result(word).ok_or(format!("not a result: {word}"));
    let results: Vec<PacketResult> = words.iter().map(parse).collect::<Result<_, _>>()?;
    if results.len() > usize::from(u8::MAX) {
        return Err("more than a count can say".to_string());
    }
    Ok(results)
}

fn parse_result(word: &str) -> Option<PacketResult> {
    let (actual_length, status) = word.split_once('/').unwrap_or((word, "0"));
    Some(PacketResult {
        actual_length: digits(actual_length)?,
        status: number(status)?,
    })
}

/// A number without a sign; `0++5` isn't a packet.
fn digits<T: Number>(text: &str) -> Option<T> {
    number(text).filter(|_| !text.starts_with('+'))
}

/// The words for whole descriptors, in lines of moderate width.
pub fn lines(descriptors: &[u8]) -> Vec<String> {
    let mut lines: Vec<String> = Vec::new();
    for bytes in descriptors.chunks_exact(DESCRIPTOR_SIZE) {
        let word = format_descriptor(&IsoPacketDescriptor::read(bytes));
        match lines.last_mut() {
            Some(line) if line.len() + word.len() < LINE_WIDTH => {
                line.push(' ');
                line.push_str(&word);
            }
            _ => lines.push(format!("packets {word}")),
        }
    }
    lines
}

fn format_descriptor(descriptor: &IsoPacketDescriptor) -> String {
    let place = format!("{}+{}", descriptor.offset, descriptor.length);
    let result = PacketResult {
        actual_length: descriptor.actual_length,
        status: descriptor.status,
    };
    if result == PacketResult::default() {
        return place;
    }
    format!("{place}/{}", format_result(&result))
}

pub fn format_result(result: &PacketResult) -> String {
    match result.status {
        0 => result.actual_length.to_string(),
        status => format!("{}/{status}", result.actual_length),
    }
}
