//! Completions with a header buffer and device data of any length, each number at its limits.

use agreement::client::{submit, unlink, with_body};
use agreement::pair::{Completion, Pair};
use agreement::reached::Reached;
use agreement::tables;
use reference::random::Random;
use reference::session::LEAST_HEADER;
use reference::table::Device;
use reference::wire::{op_req_import, CmdSubmit, USBIP_DIR_IN, USBIP_DIR_OUT};
use rimemaple::{Refusal, Returned};

/// The ticket of the submit under test; the one before it is pending, too, and the one behind it was unlinked.
const TICKET: u64 = 2;

/// A connection up to a completion, and what the client sends after it.
struct Connection {
    pair: Pair,
    later: Vec<u8>,
}

fn connection(devices: &[Device], before: &[u8], later: &[u8]) -> Connection {
    let (mut pair, _) = Pair::open(devices, devices.len());
    pair.stream(before);
    Connection {
        pair,
        later: later.to_vec(),
    }
}

/// Attached to the second device, in the middle of an OUT message.
fn attached(random: &mut Random, direction: u32, length: u32) -> Connection {
    let devices = tables::table(random, 3);
    let devid = devices[1].devid();
    let tested = CmdSubmit {
        direction,
        transfer_buffer_length: length,
        start_frame: random.next_u32(),
        number_of_packets: random.pick(&[0, u32::MAX]),
        ..submit(random.next_u32() | 0x10, devid)
    };
    let going_on = CmdSubmit {
        direction: USBIP_DIR_OUT,
        ..submit(4, devid)
    };
    let mut before = op_req_import(&devices[1].busid);
    before.extend(submit(1, devid).header());
    before.extend(with_body(&tested, random));
    before.extend(submit(3, devid).header());
    before.extend(unlink(5, devid, 3));
    let mut later = with_body(&going_on, random);
    before.extend(later.drain(..random.below(112)));
    // Whether it is pending still.
    later.extend(unlink(6, devid, tested.seqnum));
    connection(&devices, &before, &later)
}

/// Compares a completion with a header buffer of this length and what follows it, and tells the refusal or 0.
fn compare(
    connection: &Connection,
    completion: &Completion,
    header: usize,
    random: &mut Random,
) -> u32 {
    let mut header = random.bytes(header);
    let mut pair = connection.pair.clone();
    let answer = pair.complete(completion, &mut header);
    pair.stream(&connection.later);
    answer.map_or_else(|refusal| refusal.number(), |_| 0)
}

/// Numbers around a limit.
fn around(limit: u32) -> [u32; 3] {
    [limit.saturating_sub(1), limit, limit.saturating_add(1)]
}

fn kind(refusal: u32, direction: u32, completion: &Completion) -> String {
    let short = completion.payload.len() < completion.actual as usize;
    match (refusal, direction) {
        (0, USBIP_DIR_IN) => "returned IN".to_string(),
        (0, _) if short => "returned OUT with less data".to_string(),
        (0, _) => "returned OUT".to_string(),
        _ => format!("refused {refusal}"),
    }
}

#[test]
fn each_number_at_its_limits() {
    let mut random = Random::new(61);
    let frame = random.bytes(70_000);
    let mut reached = Reached::default();
    for direction in [USBIP_DIR_IN, USBIP_DIR_OUT] {
        for length in [0, 1, 64, 61_440] {
            let connection = attached(&mut random, direction, length);
            for ticket in [TICKET, 0, 1, 3, 4, TICKET + (1 << 32), u64::MAX] {
                for status in [0, -1, -104, i32::MIN, 1, i32::MAX] {
                    for actual in [&[0, 1, 61_441, u32::MAX][..], &around(length)].concat() {
                        for data in [&[0][..], &around(actual.min(61_441))].concat() {
                            let completion = Completion {
                                ticket,
                                status,
                                actual,
                                payload: &frame[..data as usize],
                            };
                            for header in [560, 561, 559, 48] {
                                let refusal =
                                    compare(&connection, &completion, header, &mut random);
                                reached.add(kind(refusal, direction, &completion));
                            }
                        }
                    }
                }
            }
        }
    }
    reached.expect_exactly(&[
        "returned IN",
        "returned OUT",
        "returned OUT with less data",
        "refused 1",
        "refused 4",
        "refused 5",
        "refused 6",
        "refused 7",
    ]);
}

#[test]
fn header_buffers_of_every_length() {
    let mut random = Random::new(62);
    let mut reached = Reached::default();
    let connection = attached(&mut random, USBIP_DIR_IN, 64);
    let frame = random.bytes(64);
    for header in 0..=600 {
        for actual in [0, 64] {
            let completion = Completion {
                ticket: TICKET,
                status: 0,
                actual,
                payload: &frame,
            };
            let refusal = compare(&connection, &completion, header, &mut random);
            let short = if header < 560 { "short" } else { "long enough" };
            reached.add(format!("{short}: {refusal}"));
        }
    }
    reached.expect_exactly(&["short: 1", "long enough: 0"]);
}

/// Attached, with one submit pending, the first.
fn asked(random: &mut Random, tested: &CmdSubmit) -> Pair {
    let devices = tables::table(random, 1);
    let submit = CmdSubmit {
        devid: devices[0].devid(),
        ..*tested
    };
    let before = [op_req_import(&devices[0].busid), with_body(&submit, random)].concat();
    connection(&devices, &before, &[]).pair
}

fn status_kind(
    tested: &CmdSubmit,
    given: &Completion,
    answer: Result<Returned, Refusal>,
) -> String {
    let size = match given.actual < tested.transfer_buffer_length {
        true => "short",
        false => "whole",
    };
    let direction = tested.direction;
    match answer {
        Err(refusal) => format!("refused {}", refusal.number()),
        Ok(returned) if returned.status == given.status => {
            format!("{size}, direction {direction}: as given")
        }
        Ok(returned) => {
            let (given, sent) = (given.status, returned.status);
            format!("{size}, direction {direction}: {sent} for {given}")
        }
    }
}

/// Completes a submit with actual lengths around its own and with several statuses.
fn complete_each_way(random: &mut Random, tested: &CmdSubmit, reached: &mut Reached) {
    let pair = asked(random, tested);
    let length = tested.transfer_buffer_length;
    for actual in [&[0, 1, 10, length / 2][..], &around(length)].concat() {
        for status in [0, -1, -5, -121, i32::MIN] {
            let completion = Completion {
                ticket: 1,
                status,
                actual,
                payload: &[0; 61_441],
            };
            let answer = pair.clone().complete(&completion, &mut [0; LEAST_HEADER]);
            reached.add(status_kind(tested, &completion, answer));
        }
    }
}

/// Each field that decides about a short read, at its limits.
#[test]
fn short_reads() {
    let mut random = Random::new(64);
    let mut reached = Reached::default();
    let any = random.next_u32();
    for direction in [USBIP_DIR_IN, USBIP_DIR_OUT] {
        for flags in [0, 1, 2, 3, 0x200, 0x201, u32::MAX - 1, u32::MAX, any] {
            for (packets, length) in [(0, 0), (0, 1), (u32::MAX, 64), (0, 61_440)] {
                let tested = CmdSubmit {
                    direction,
                    transfer_flags: flags,
                    transfer_buffer_length: length,
                    number_of_packets: packets,
                    ..submit(1, 0)
                };
                complete_each_way(&mut random, &tested, &mut reached);
            }
        }
    }
    reached.expect_exactly(&[
        "short, direction 1: -121 for 0",
        "short, direction 1: as given",
        "short, direction 0: as given",
        "whole, direction 1: as given",
        "whole, direction 0: as given",
        "refused 6",
    ]);
}

/// Sessions with nothing pending, each with its name.
fn idle(random: &mut Random) -> [(&'static str, Connection); 5] {
    let devices = tables::table(random, 3);
    let mut clash = devices.clone();
    clash[2].busid = clash[0].busid;
    let import = op_req_import(&devices[1].busid);
    let later = [&import[..], &submit(1, devices[1].devid()).header()].concat();
    let broken = [&import[..], &[0; 48]].concat();
    [
        ("waiting", &devices, &[][..]),
        ("waiting within an import", &devices, &import[..20]),
        ("attached", &devices, &import),
        ("closed by a break", &devices, &broken),
        ("closed by open", &clash, &[]),
    ]
    .map(|(name, devices, before)| (name, connection(devices, before, &later)))
}

#[test]
fn sessions_with_nothing_pending() {
    let mut random = Random::new(63);
    let mut reached = Reached::default();
    for (name, connection) in idle(&mut random) {
        for ticket in [0, 1, u64::MAX] {
            for (status, actual) in [(0, 0), (1, 65)] {
                for header in [0, 48, 559, 560] {
                    let completion = Completion {
                        ticket,
                        status,
                        actual,
                        payload: &[],
                    };
                    let refusal = compare(&connection, &completion, header, &mut random);
                    reached.add(format!("{name}: {refusal}"));
                }
            }
        }
    }
    reached.expect_exactly(&[
        "waiting: 1",
        "waiting: 4",
        "waiting within an import: 1",
        "waiting within an import: 4",
        "attached: 1",
        "attached: 4",
        "closed by a break: 3",
        "closed by open: 3",
    ]);
}
