//! Ends of a tape that don't read.

use crate::random::Random;
use crate::tape::{CLIENT_MARK, CLOSE_MARK, DEVICE_MARK, ISO_MARK, MAX_COUNT, MAX_RESULTS};
use crate::wire::{be16, op_req_import_of};

#[derive(Clone, Copy, Debug, PartialEq, Eq, PartialOrd, Ord)]
pub enum BadEnd {
    LoneByte,
    OtherMark,
    ShortCount,
    CountTooHigh,
    ShortBody,
    ShortCompletion,
    ShortIsoHead,
    TooManyResults,
    ShortResults,
}

pub const BAD_ENDS: [BadEnd; 9] = [
    BadEnd::LoneByte,
    BadEnd::OtherMark,
    BadEnd::ShortCount,
    BadEnd::CountTooHigh,
    BadEnd::ShortBody,
    BadEnd::ShortCompletion,
    BadEnd::ShortIsoHead,
    BadEnd::TooManyResults,
    BadEnd::ShortResults,
];

/// Of an isochronous completion's mark, ticket and status, behind which is its packet count.
const ISO_COUNT_PLACE: usize = 14;

impl BadEnd {
    /// Which kind a bad record is, from the bytes that were read of it; a 65,537th is none.
    pub fn of(bytes: &[u8]) -> BadEnd {
        match (bytes.first_chunk(), bytes.len()) {
            (None, _) => BadEnd::LoneByte,
            (Some(&DEVICE_MARK), _) => BadEnd::ShortCompletion,
            (Some(&ISO_MARK), 2..=ISO_COUNT_PLACE) => BadEnd::ShortIsoHead,
            (Some(&ISO_MARK), _) if bytes[ISO_COUNT_PLACE] > MAX_RESULTS => BadEnd::TooManyResults,
            (Some(&ISO_MARK), _) => BadEnd::ShortResults,
            (Some(&CLIENT_MARK), 2..=3) => BadEnd::ShortCount,
            (Some(&CLIENT_MARK), 4) if count_is_too_high(bytes) => BadEnd::CountTooHigh,
            (Some(&CLIENT_MARK), _) => BadEnd::ShortBody,
            _ => BadEnd::OtherMark,
        }
    }

    /// Bytes that don't read; whoever acts on them all the same will show it.
    pub fn bytes(self, random: &mut Random) -> Vec<u8> {
        match self {
            BadEnd::LoneByte => vec![random.pick(b"CDIX>\0\n")],
            BadEnd::OtherMark => {
                let marks = [*b"c>", *b"C<", *b">C", *b"E>", *b"XX", *b"i>", *b"\r\n"];
                let mark = random.pick(&marks);
                [mark, CLOSE_MARK].concat()
            }
            BadEnd::ShortCount => [&CLIENT_MARK[..], &[0][..random.below(2)]].concat(),
            BadEnd::CountTooHigh => {
                let count = random.pick(&[MAX_COUNT + 1, 0xffff]);
                stream(count, &vec![0; count])
            }
            BadEnd::ShortBody => {
                let message = op_req_import_of("1-1");
                let there = random.below(message.len());
                let count = random.pick(&[there + 1, message.len() + 1, MAX_COUNT]);
                stream(count, &message[..there])
            }
            BadEnd::ShortCompletion => {
                let mut record = [&DEVICE_MARK[..], &[0; 16]].concat();
                record.truncate(2 + random.below(16));
                record
            }
            BadEnd::ShortIsoHead => {
                let there = 2 + random.below(ISO_COUNT_PLACE - 1);
                iso_completion(0)[..there].to_vec()
            }
            BadEnd::TooManyResults => iso_completion(random.pick(&[33, 64, 128, 255])),
            BadEnd::ShortResults => {
                let whole = iso_completion(random.pick(&[1, 2, MAX_RESULTS]));
                let start = ISO_COUNT_PLACE + 1;
                let there = random.pick(&[start, whole.len() - 1, whole.len() - 8]);
                whole[..there].to_vec()
            }
        }
    }
}

fn count_is_too_high(record: &[u8]) -> bool {
    usize::from(be16(record, CLIENT_MARK.len())) > MAX_COUNT
}

fn stream(count: usize, bytes: &[u8]) -> Vec<u8> {
    let count = (count as u16).to_be_bytes();
    [&CLIENT_MARK[..], &count, bytes].concat()
}

/// With as many zero results as its count says.
fn iso_completion(count: u8) -> Vec<u8> {
    let results = vec![0; 8 * usize::from(count)];
    [&ISO_MARK[..], &[0; 12], &[count], &results].concat()
}

#[cfg(test)]
mod tests {
    use super::*;
    use crate::tape::{Item, Reader};

    #[test]
    fn no_end_reads_and_each_is_of_its_kind() {
        let mut random = Random::new(3);
        for kind in BAD_ENDS {
            for _ in 0..200 {
                let end = kind.bytes(&mut random);
                let item = Reader::new(&end[..]).read_item().unwrap();
                let Item::Bad(bytes) = item else {
                    panic!("{kind:?} reads: {end:?}");
                };
                assert_eq!(BadEnd::of(&bytes), kind, "{end:?}");
            }
        }
    }
}
