//! The sending step: which bytes go to the socket next, lent and never copied.

use crate::wire::{DESCRIPTOR_SIZE, HEADER_SIZE};

/// The next part to send of the header's 48 bytes, the first `count` bytes of data, and the
/// descriptors of so many packets behind the header's 48, when `sent` bytes are gone already and
/// the socket takes at most `most`.
pub fn part<'a>(
    header: &'a [u8],
    data: &'a [u8],
    count: usize,
    packets: usize,
    sent: usize,
    most: usize,
) -> &'a [u8] {
    // More packets than a usize can count the bytes of are more than any header has.
    let size = packets.checked_mul(DESCRIPTOR_SIZE);
    let written = size.and_then(|size| size.checked_add(HEADER_SIZE));
    let Some(reply) = written.and_then(|written| header.get(..written)) else {
        return &[];
    };
    let Some(data) = data.get(..count) else {
        return &[];
    };
    let (head, descriptors) = reply.split_at(HEADER_SIZE);
    let mut gone = sent;
    for segment in [head, data, descriptors] {
        if let Some(rest) = segment.get(gone..).filter(|rest| !rest.is_empty()) {
            return &rest[..rest.len().min(most)];
        }
        gone -= segment.len();
    }
    &[]
}

#[cfg(test)]
mod tests {
    use super::*;

    const HEADER: [u8; 82] = {
        let mut header = [b'h'; 82];
        let mut index = HEADER_SIZE;
        while index < header.len() {
            header[index] = b'p';
            index += 1;
        }
        header
    };
    const DATA: [u8; 6] = *b"dataXX";

    fn next(sent: usize, most: usize) -> &'static [u8] {
        part(&HEADER, &DATA, 4, 0, sent, most)
    }

    /// With two packets.
    fn next_iso(sent: usize, most: usize) -> &'static [u8] {
        part(&HEADER, &DATA, 4, 2, sent, most)
    }

    #[test]
    fn header_first_then_data_and_never_past_the_end() {
        for next in [next, next_iso] {
            assert_eq!(next(0, 100), [b'h'; 48]);
            assert_eq!(next(40, 5), [b'h'; 5]);
            assert_eq!(next(47, 5), [b'h'; 1]);
            assert_eq!(next(48, 100), b"data");
            assert_eq!(next(48, 3), b"dat");
            assert_eq!(next(51, 3), b"a");
        }
        assert!(next(52, 100).is_empty());
    }

    #[test]
    fn descriptors_come_behind_the_data() {
        assert_eq!(next_iso(52, 100), [b'p'; 32]);
        assert_eq!(next_iso(52, 17), [b'p'; 17]);
        assert_eq!(next_iso(83, 2), [b'p'; 1]);
        assert!(next_iso(84, 1).is_empty());
        assert_eq!(part(&HEADER, &[], 0, 2, 48, 33), [b'p'; 32]);
    }

    #[test]
    fn a_part_is_lent_and_not_copied() {
        let (header, data) = (HEADER, DATA);
        let first = |sent| part(&header, &data, 4, 2, sent, 9).first().unwrap();
        assert!(std::ptr::eq(first(3), &header[3]));
        assert!(std::ptr::eq(first(50), &data[2]));
        assert!(std::ptr::eq(first(52), &header[48]));
        assert!(std::ptr::eq(first(83), &header[79]));
    }

    #[test]
    fn four_causes_of_an_empty_part() {
        assert!(next(52, 1).is_empty());
        assert!(next(usize::MAX, usize::MAX).is_empty());
        assert!(next_iso(usize::MAX, usize::MAX).is_empty());
        for sent in [0, 48, 52] {
            assert!(next_iso(sent, 0).is_empty());
            assert!(part(&HEADER[..47], &DATA, 4, 0, sent, 1).is_empty());
            assert!(part(&HEADER[..79], &DATA, 4, 2, sent, 1).is_empty());
            assert!(!part(&HEADER[..80], &DATA, 4, 2, sent, 1).is_empty());
            assert!(part(&HEADER, &DATA, 7, 2, sent, 1).is_empty());
        }
        assert!(part(&HEADER, &DATA, usize::MAX, 0, usize::MAX, 1).is_empty());
    }

    #[test]
    fn any_number_of_packets_can_be_asked_for() {
        let wrapping = 1 << (usize::BITS - 4);
        for packets in [3, wrapping - 3, wrapping, wrapping + 2, usize::MAX] {
            for sent in [0, 48, 52, usize::MAX] {
                assert!(part(&HEADER, &DATA, 4, packets, sent, 1).is_empty());
            }
        }
    }

    #[test]
    fn the_whole_goes_out_in_order() {
        let mut header: Vec<u8> = (0..48).collect();
        header.extend(112..160);
        let data: Vec<u8> = (48..112).collect();
        for (packets, whole) in [(0, 112), (1, 128), (3, 160)] {
            for most in [1, 7, 48, 49, usize::MAX] {
                let mut gone: Vec<u8> = Vec::new();
                let mut steps = 0;
                while gone.len() < whole {
                    gone.extend(part(&header, &data, 64, packets, gone.len(), most));
                    steps += 1;
                    assert!(steps <= whole);
                }
                assert_eq!(gone, (0..whole as u8).collect::<Vec<u8>>());
                assert!(part(&header, &data, 64, packets, whole, most).is_empty());
            }
        }
    }
}
