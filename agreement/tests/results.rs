//! Isochronous completions: each number at its limits, the two kinds mixed up, and whole replies sent.

use agreement::client::{good_packets, submit, with_packets};
use agreement::pair::{Completion, IsoCompletion, Pair};
use agreement::reached::Reached;
use agreement::tables;
use reference::causes::{self, OF_RESULTS};
use reference::packets::{Packet, PacketResult};
use reference::random::Random;
use reference::session::{Urb, LEAST_HEADER};
use reference::wire::{op_req_import, CmdSubmit, HEADER_SIZE, USBIP_DIR_IN, USBIP_DIR_OUT};
use rimemaple::{Refusal, Returned};

/// The URB under test; the first one is pending, too, and isn't isochronous, and the third one was unlinked.
const TICKET: u64 = 2;

/// Attached, with a submit of these packets pending under [`TICKET`].
fn asked(random: &mut Random, submitted: &CmdSubmit, packets: &[Packet]) -> Pair {
    let devices = tables::table(random, 2);
    let devid = devices[1].devid();
    let tested = CmdSubmit {
        devid,
        ..*submitted
    };
    let gone = submit(3, devid);
    let (mut pair, _) = Pair::open(&devices, 2);
    pair.stream(&op_req_import(&devices[1].busid));
    pair.stream(&submit(1, devid).header());
    pair.stream(&with_packets(&tested, packets, random));
    pair.stream(&gone.header());
    pair.stream(&agreement::client::unlink(9, devid, gone.seqnum));
    assert_eq!(pair.reference.numbers().pending, 2);
    pair
}

fn iso(direction: u32, length: u32, count: u32, random: &mut Random) -> CmdSubmit {
    CmdSubmit {
        direction,
        transfer_flags: random.pick(&[0, 1, u32::MAX]),
        transfer_buffer_length: length,
        start_frame: random.next_u32(),
        number_of_packets: count,
        ..submit(2, 0)
    }
}

fn pending(pair: &Pair, ticket: u64) -> Option<Urb> {
    let mut urbs = pair.reference.pending().iter();
    urbs.find(|urb| urb.ticket == ticket).cloned()
}

/// The answer, and of a refusal with 6 its cause.
fn kind(pair: &Pair, given: &IsoCompletion, answer: Result<Returned, Refusal>) -> String {
    let urb = pending(pair, given.ticket);
    match (answer, urb) {
        (Ok(_), Some(urb)) => format!("returned, direction {}", urb.direction),
        (Err(Refusal::MISFIT), Some(urb)) => {
            let cause = causes::of_results(&urb, given.results, given.total);
            format!("refused 6 by {cause}")
        }
        (Err(refusal), _) => format!("refused {}", refusal.number()),
        (Ok(_), None) => panic!("returned and not pending"),
    }
}

/// Compares a completion of a copy of the pair, and tells its kind.
fn compare(pair: &Pair, given: &IsoCompletion, header: usize, random: &mut Random) -> String {
    let mut header = random.bytes(header);
    let answer = pair.clone().complete_iso(given, &mut header);
    kind(pair, given, answer)
}

/// Whole results, each of them changed, one fewer and one more, none, and as many as no URB has.
fn lists(packets: &[Packet]) -> Vec<Vec<PacketResult>> {
    let whole: Vec<PacketResult> = packets
        .iter()
        .map(|packet| PacketResult {
            actual_length: packet.length,
            status: 0,
        })
        .collect();
    let zeros = |count| vec![PacketResult::default(); count];
    let mut lists = vec![whole.clone(), zeros(packets.len()), zeros(0)];
    lists.push(zeros(packets.len().saturating_sub(1)));
    lists.push(zeros(packets.len() + 1));
    lists.extend([zeros(31), zeros(32), zeros(33), zeros(100)]);
    for place in 0..packets.len() {
        for actual_length in [
            packets[place].length + 1,
            packets[place].length.saturating_sub(1),
            u32::MAX,
        ] {
            for mut list in [whole.clone(), zeros(packets.len())] {
                list[place].actual_length = actual_length;
                lists.push(list);
            }
        }
    }
    // Sums of 2^32 and a little more.
    for more in [1, 2] {
        let mut list = zeros(packets.len());
        if let [first, .., last] = &mut list[..] {
            (first.actual_length, last.actual_length) = (u32::MAX, more);
        }
        lists.push(list);
    }
    lists
}

fn sum(results: &[PacketResult]) -> u32 {
    let lengths = results.iter().map(|result| result.actual_length);
    lengths.fold(0, u32::wrapping_add)
}

const PLACES: [&[(u32, u32)]; 4] = [
    &[],
    &[(0, 100)],
    &[(0, 40), (40, 0), (40, 60)],
    &[(0, 50), (50, 50)],
];

fn packets(places: &[(u32, u32)]) -> Vec<Packet> {
    let packet = |&(offset, length)| Packet { offset, length };
    places.iter().map(packet).collect()
}

/// Compares every total around the sum, on each ticket, with data and headers at their limits.
fn compare_each_way(
    pair: &Pair,
    results: &[PacketResult],
    random: &mut Random,
    reached: &mut Reached,
) {
    let frame = random.bytes(200);
    let exact = sum(results);
    for total in [exact, exact.wrapping_add(1), exact.wrapping_sub(1), 101] {
        for (ticket, status) in [(TICKET, 0), (TICKET, 1), (1, -1), (3, 1), (4, 0)] {
            let data = (total as usize).min(200);
            for (data, header) in [(data, 560), (data, 559), (data.saturating_sub(1), 561)] {
                let given = IsoCompletion {
                    ticket,
                    status,
                    total,
                    results,
                    payload: &frame[..data],
                };
                reached.add(compare(pair, &given, header, random));
            }
        }
    }
}

#[test]
fn each_number_at_its_limits() {
    let mut random = Random::new(111);
    let mut reached = Reached::default();
    for direction in [USBIP_DIR_IN, USBIP_DIR_OUT] {
        for places in PLACES {
            let packets = packets(places);
            let count = match packets.len() {
                0 if direction == USBIP_DIR_IN => u32::MAX,
                count => count as u32,
            };
            let tested = iso(direction, 100, count, &mut random);
            let pair = asked(&mut random, &tested, &packets);
            for results in lists(&packets) {
                compare_each_way(&pair, &results, &mut random, &mut reached);
            }
        }
    }
    let mut kinds: Vec<String> = OF_RESULTS
        .iter()
        .map(|cause| format!("refused 6 by {cause}"))
        .collect();
    kinds.extend([1, 4, 5, 7].map(|number| format!("refused {number}")));
    kinds.extend([0, 1].map(|direction| format!("returned, direction {direction}")));
    reached.expect_exactly(&kinds);
}

/// Completes the URB by both acts, with packets and without any.
fn complete_by_both(pair: &Pair, packets: u32, reached: &mut Reached) {
    let count = pending(pair, TICKET).map_or(0, |urb| urb.packets.len());
    let (ticket, status, payload) = (TICKET, 0, &[0; 64][..]);
    for actual in [0, 64] {
        let completion = Completion {
            ticket,
            status,
            actual,
            payload,
        };
        let answer = pair.clone().complete(&completion, &mut [0; LEAST_HEADER]);
        reached.add(act_kind("plain", packets, answer));
    }
    for count in [0, count] {
        let given = IsoCompletion {
            ticket,
            status,
            total: 0,
            results: &vec![PacketResult::default(); count],
            payload,
        };
        let answer = pair.clone().complete_iso(&given, &mut [0; LEAST_HEADER]);
        let act = if count == 0 { "no packets" } else { "packets" };
        reached.add(act_kind(act, packets, answer));
    }
}

/// Each act returns URBs of its own kind, and is refused with 6 for the other's.
#[test]
fn the_two_kinds_of_completion() {
    let mut random = Random::new(112);
    let mut reached = Reached::default();
    for direction in [USBIP_DIR_IN, USBIP_DIR_OUT] {
        for packets in [0, 1, 2, 32, u32::MAX] {
            let tested = iso(direction, 64, packets, &mut random);
            let list = good_packets(&tested, &mut random);
            let pair = asked(&mut random, &tested, &list);
            complete_by_both(&pair, packets, &mut reached);
        }
    }
    reached.expect_exactly(&[
        "plain, a URB without packets: 0",
        "plain, a URB with packets: 6",
        "no packets, a URB without packets: 6",
        "no packets, a URB with packets: 6",
        "packets, a URB with packets: 0",
    ]);
}

fn act_kind(act: &str, packets: u32, answer: Result<Returned, Refusal>) -> String {
    let urb = match packets {
        1..=32 => "a URB with packets",
        _ => "a URB without packets",
    };
    let number = answer.map_or_else(|refusal| refusal.number(), |_| 0);
    format!("{act}, {urb}: {number}")
}

#[test]
fn header_buffers_of_every_length() {
    let mut random = Random::new(113);
    let mut reached = Reached::default();
    let packets = packets(PLACES[3]);
    let tested = iso(USBIP_DIR_IN, 100, 2, &mut random);
    let pair = asked(&mut random, &tested, &packets);
    let results = vec![PacketResult::default(); 2];
    for header in 0..=600 {
        let given = IsoCompletion {
            ticket: TICKET,
            status: 0,
            total: 0,
            results: &results,
            payload: &[],
        };
        let short = if header < 560 { "short" } else { "long enough" };
        let kind = compare(&pair, &given, header, &mut random);
        reached.add(format!("{short}: {kind}"));
    }
    reached.expect_exactly(&["short: refused 1", "long enough: returned, direction 1"]);
}

/// Results within their packets, with statuses of any kind.
fn any_results(packets: &[Packet], random: &mut Random) -> Vec<PacketResult> {
    let any = random.next_u32() as i32;
    packets
        .iter()
        .map(|packet| PacketResult {
            actual_length: random.below(packet.length as usize + 1) as u32,
            status: random.pick(&[0, 0, 1, -1, i32::MIN, i32::MAX, any]),
        })
        .collect()
}

/// Sends a reply to a socket that takes so many bytes at a time.
fn sent(header: &[u8], data: &[u8], n: usize, packets: usize, most: usize) -> Vec<u8> {
    let mut sent = Vec::new();
    loop {
        let part = rimemaple::part(header, data, n, packets, sent.len(), most);
        if part.is_empty() {
            return sent;
        }
        sent.extend_from_slice(part);
    }
}

/// Completes a URB with any results and sends the reply: how many bytes of data it has, and how many packets failed.
fn complete_and_send(tested: &CmdSubmit, frame: &[u8], random: &mut Random) -> (usize, usize) {
    let packets = good_packets(tested, random);
    let mut pair = asked(random, tested, &packets);
    let results = any_results(&packets, random);
    let given = IsoCompletion {
        ticket: TICKET,
        status: random.pick(&[0, -1, i32::MIN]),
        total: sum(&results),
        results: &results,
        payload: frame,
    };
    let mut header = [0xa5; LEAST_HEADER];
    let returned = pair.complete_iso(&given, &mut header).expect("it fits");
    assert_eq!(returned.status, given.status);
    let written = HEADER_SIZE + 16 * packets.len();
    let n = returned.length as usize - written;
    let whole = sent(&header, frame, n, packets.len(), 1 + random.below(700));
    assert!(
        whole
            == [
                &header[..HEADER_SIZE],
                &frame[..n],
                &header[HEADER_SIZE..written]
            ]
            .concat()
    );
    let failed = results.iter().filter(|result| result.status != 0).count();
    assert_eq!(header[36..40], (failed as u32).to_be_bytes());
    (n, failed)
}

#[test]
fn any_results_and_their_replies() {
    let mut random = Random::new(114);
    let frame = random.bytes(61_440);
    let mut reached = Reached::default();
    for _ in 0..2_000 {
        let direction = random.pick(&[USBIP_DIR_IN, USBIP_DIR_OUT]);
        let length = random.pick(&[0, 1, 64, 3_072, 61_440]);
        let count = 1 + random.below(32) as u32;
        let tested = iso(direction, length, count, &mut random);
        reached.add(match complete_and_send(&tested, &frame, &mut random) {
            (0, _) => "no data",
            (_, 0) => "data, no packet failed",
            (_, failed) if failed == count as usize => "data, every packet failed",
            _ => "data, some packets failed",
        });
    }
    reached.expect_exactly(&[
        "no data",
        "data, no packet failed",
        "data, every packet failed",
        "data, some packets failed",
    ]);
}
