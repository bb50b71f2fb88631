//! The sending step, at the limits of each of its numbers, and whole sends.

use agreement::reached::Reached;
use reference::random::Random;
use reference::sending;
use reference::wire::{DESCRIPTOR_SIZE, HEADER_SIZE};

const MAX: usize = usize::MAX;

/// Device data of the longest send.
const ROOM: usize = 300;

/// What is sent, as far as the lent bytes go.
#[derive(Clone, Copy)]
struct Reply<'a> {
    header: &'a [u8],
    data: &'a [u8],
    n: usize,
    packets: usize,
}

impl<'a> Reply<'a> {
    /// Compares a step: its place in the header or the data, and its length. (To which of them an empty part belongs is
    /// left free.)
    fn part(&self, sent: usize, most: usize) -> &'a [u8] {
        let Reply {
            header,
            data,
            n,
            packets,
        } = *self;
        let part = rimemaple::part(header, data, n, packets, sent, most);
        let expected = sending::part(header, data, n, packets, sent, most);
        let empty = part.is_empty() && expected.is_empty();
        let case = (header.len(), data.len(), n, packets, sent, most);
        assert!(empty || std::ptr::eq(part, expected), "{case:?}");
        part
    }

    /// Compares a step, and tells what it was.
    fn compare(&self, sent: usize, most: usize) -> &'static str {
        let length = self.part(sent, most).len();
        let written = HEADER_SIZE as u128 + DESCRIPTOR_SIZE as u128 * self.packets as u128;
        let whole = written + self.n as u128;
        let taken = length == most;
        let ends = [HEADER_SIZE, HEADER_SIZE.saturating_add(self.n)];
        if self.header.len() < HEADER_SIZE {
            "empty: short header"
        } else if (self.header.len() as u128) < written {
            "empty: short descriptors"
        } else if self.data.len() < self.n {
            "empty: short data"
        } else if sent as u128 >= whole {
            "empty: all is sent"
        } else if most == 0 {
            "empty: nothing is taken"
        } else if sent < ends[0] {
            if taken {
                "header: as much as is taken"
            } else {
                "header: to its end"
            }
        } else if sent < ends[1] {
            if taken {
                "data: as much as is taken"
            } else {
                "data: to its end"
            }
        } else if taken {
            "descriptors: as much as is taken"
        } else {
            "descriptors: to their end"
        }
    }
}

/// Numbers around a limit.
fn around(limit: usize) -> [usize; 3] {
    [limit.saturating_sub(1), limit, limit.saturating_add(1)]
}

const KINDS: [&str; 11] = [
    "empty: short header",
    "empty: short descriptors",
    "empty: short data",
    "empty: all is sent",
    "empty: nothing is taken",
    "header: as much as is taken",
    "header: to its end",
    "data: as much as is taken",
    "data: to its end",
    "descriptors: as much as is taken",
    "descriptors: to their end",
];

/// Every place at which a part may end, and every most that may end it.
fn compare_steps(reply: &Reply, reached: &mut Reached) {
    let size = reply.packets.saturating_mul(DESCRIPTOR_SIZE);
    let data_end = HEADER_SIZE.saturating_add(reply.n);
    let end = data_end.saturating_add(size);
    let limits = [
        &[0, 1, MAX - 1, MAX][..],
        &around(HEADER_SIZE),
        &around(data_end),
        &around(end),
    ];
    for sent in limits.concat() {
        let left = [HEADER_SIZE, data_end, end].map(|end| around(end.saturating_sub(sent)));
        for most in [&[0, 1, MAX - 1, MAX][..], &left.concat()].concat() {
            reached.add(reply.compare(sent, most));
        }
    }
}

#[test]
fn each_number_at_its_limits() {
    let mut random = Random::new(31);
    let bytes = random.bytes(700);
    let (headers, frames) = bytes.split_at(600);
    // 16 times 2^60 is 0 modulo 2^64.
    let wrapping = 1 << 60;
    let mut reached = Reached::default();
    for header in [0, 1, 47, 48, 49, 63, 64, 65, 559, 560, 561] {
        for data in [0, 1, 2, 63, 64] {
            for n in [&[0, 1, MAX - 48, MAX - 47, MAX][..], &around(data)].concat() {
                for packets in [0, 1, 32, 33, wrapping - 3, wrapping, wrapping + 1, MAX] {
                    let reply = Reply {
                        header: &headers[..header],
                        data: &frames[..data],
                        n,
                        packets,
                    };
                    compare_steps(&reply, &mut reached);
                }
            }
        }
    }
    reached.expect_exactly(&KINDS);
}

#[test]
fn random_numbers() {
    let mut random = Random::new(32);
    let bytes = random.bytes(600);
    let (headers, frames) = bytes.split_at(300);
    let mut reached = Reached::default();
    for _ in 0..100_000 {
        let packets = random.below(6);
        let written = HEADER_SIZE + DESCRIPTOR_SIZE * packets;
        let header = random.pick(&[written, written, 46, written - 1, written + 20]);
        let data = random.below(ROOM);
        let n = random.below(data + 5);
        let reply = Reply {
            header: &headers[..header],
            data: &frames[..data],
            n,
            packets,
        };
        let sent = random.below(written + n + 5);
        reached.add(reply.compare(sent, random.below(100)));
    }
    reached.expect_exactly(&KINDS);
    assert_eq!(reached.total(), 100_000);
}

/// Sends the whole to a socket that takes up to `limit` at a time, and counts the steps.
fn send(reply: &Reply, limit: usize, random: &mut Random) -> (Vec<u8>, usize) {
    let mut gone: Vec<u8> = Vec::new();
    let mut steps = 0;
    loop {
        let part = reply.part(gone.len(), 1 + random.below(limit));
        if part.is_empty() {
            return (gone, steps);
        }
        gone.extend(part);
        steps += 1;
    }
}

#[test]
fn the_whole_goes_out_in_order_and_in_time() {
    let mut random = Random::new(33);
    let mut reached = Reached::default();
    for round in 0..2_000 {
        let (any, more) = (random.below(ROOM), random.below(3));
        let n = random.pick(&[0, any, any]);
        let packets = random.pick(&[0, 1, 2, 7, 32]);
        let written = HEADER_SIZE + DESCRIPTOR_SIZE * packets;
        let (header, data) = (random.bytes(written + more), random.bytes(n + more));
        let (header, data) = (&header[..], &data[..]);
        let whole = [
            &header[..HEADER_SIZE],
            &data[..n],
            &header[HEADER_SIZE..written],
        ]
        .concat();
        let reply = Reply {
            header,
            data,
            n,
            packets,
        };
        let (gone, steps) = send(&reply, [1, 2, 7, 49, MAX][round % 5], &mut random);
        assert_eq!(gone, whole);
        assert!(steps <= whole.len());
        reached.add(match steps {
            1 => "in one step",
            2 => "in two",
            3 => "in three",
            _ if steps == whole.len() => "in as many as bytes",
            _ => "in between",
        });
    }
    let most = ["in between", "in as many as bytes"];
    reached.expect_exactly(&[&["in one step", "in two", "in three"][..], &most].concat());
}
