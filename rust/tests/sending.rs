//! Sending a reply in parts.

use rimemaple::{part, DESCRIPTOR_LEN, HEADER_LEN, HEADER_ROOM, MAX_PACKETS};

const HEADER: [u8; HEADER_ROOM] = {
    let mut header = [b'd'; HEADER_ROOM];
    let mut i = 0;
    while i < HEADER_LEN {
        header[i] = b'h';
        i += 1;
    }
    header
};
const PAYLOAD: &[u8] = b"bigeye, not yellowfin";
/// How much of the payload goes out.
const COUNT: usize = 6;
const PACKETS: usize = 2;
/// What of the header goes out, packets included.
const LEAST: usize = HEADER_LEN + PACKETS * DESCRIPTOR_LEN;

/// Sends `count` bytes of the payload and the descriptors of so many packets, `most` bytes at a time.
fn send(count: usize, packets: usize, most: usize) {
    let (head, descriptors) = HEADER.split_at(HEADER_LEN);
    let descriptors = &descriptors[..packets * DESCRIPTOR_LEN];
    let whole = [head, &PAYLOAD[..count], descriptors].concat();
    let mut wire: Vec<u8> = Vec::new();
    let mut steps = 0;
    while wire.len() < whole.len() {
        wire.extend(part(&HEADER, PAYLOAD, count, packets, wire.len(), most));
        steps += 1;
        assert!(steps <= whole.len(), "{most} at a time");
    }
    assert_eq!(wire, whole, "{most} at a time");
    assert!(part(&HEADER, PAYLOAD, count, packets, wire.len(), most).is_empty());
}

#[test]
fn the_parts_are_the_whole() {
    for most in (1..=HEADER_ROOM + COUNT).chain([usize::MAX]) {
        for packets in [0, 1, PACKETS, MAX_PACKETS] {
            send(COUNT, packets, most);
            send(0, packets, most);
        }
    }
}

#[test]
fn a_part_is_lent_and_not_copied() {
    let header = HEADER;
    assert!(std::ptr::eq(
        part(&header, PAYLOAD, COUNT, 0, 40, 5),
        &header[40..45]
    ));
    assert!(std::ptr::eq(
        part(&header, PAYLOAD, COUNT, 0, 50, 99),
        &PAYLOAD[2..COUNT]
    ));
    assert!(std::ptr::eq(
        part(&header, PAYLOAD, COUNT, PACKETS, 60, 99),
        &header[54..LEAST]
    ));
}

#[test]
fn a_part_never_crosses_a_border() {
    let lengths: Vec<usize> = [0, HEADER_LEN, HEADER_LEN + COUNT]
        .map(|sent| part(&HEADER, PAYLOAD, COUNT, PACKETS, sent, usize::MAX).len())
        .to_vec();
    assert_eq!(lengths, [HEADER_LEN, COUNT, PACKETS * DESCRIPTOR_LEN]);
}

#[test]
fn too_short_a_slice_sends_nothing() {
    assert!(part(&HEADER[..HEADER_LEN - 1], PAYLOAD, COUNT, 0, 0, 99).is_empty());
    assert!(part(&HEADER[..LEAST - 1], PAYLOAD, COUNT, PACKETS, 0, 99).is_empty());
    assert!(!part(&HEADER[..LEAST], PAYLOAD, COUNT, PACKETS, 0, 99).is_empty());
    assert!(part(&HEADER, PAYLOAD, PAYLOAD.len() + 1, 0, 0, 99).is_empty());
    assert!(part(&HEADER, PAYLOAD, COUNT, 0, 0, 0).is_empty());
    assert!(part(&HEADER, PAYLOAD, COUNT, usize::MAX, 0, 99).is_empty());
    assert!(part(&[], &[], usize::MAX, usize::MAX, usize::MAX, usize::MAX).is_empty());
}
