//! Why packets or results don't fit, told apart for tests that have to reach every cause: each is
//! named where it is the only one.

use crate::packets::{Packet, PacketResult};
use crate::session::Urb;
use crate::wire::{CmdSubmit, NOT_ISOCHRONOUS, USBIP_DIR_OUT};

/// Of a submit's packets.
pub const OF_PACKETS: [&str; 6] = [
    "a packet past the transfer",
    "an overlap",
    "a gap of an OUT",
    "an OUT's end",
    "a sum that fits modulo 2^32",
    "several",
];

/// Why the submit's packets are answered -22, if they are.
pub fn of_packets(submit: &CmdSubmit, packets: &[Packet]) -> Option<&'static str> {
    let exact = |packet: &Packet| u64::from(packet.offset) + u64::from(packet.length);
    let wrapping = |packet: &Packet| u64::from(packet.offset.wrapping_add(packet.length));
    match faults(submit, packets, exact)[..] {
        [] => None,
        _ if faults(submit, packets, wrapping).is_empty() => Some("a sum that fits modulo 2^32"),
        [fault] => Some(fault),
        _ => Some("several"),
    }
}

/// The kinds of faults that the packets have, with the sums that `end` makes.
fn faults(submit: &CmdSubmit, packets: &[Packet], end: fn(&Packet) -> u64) -> Vec<&'static str> {
    let length = u64::from(submit.transfer_buffer_length);
    let fills = submit.direction == USBIP_DIR_OUT;
    let mut faults = Vec::new();
    let mut last_end = 0;
    for packet in packets {
        let offset = u64::from(packet.offset);
        if end(packet) > length {
            faults.push("a packet past the transfer");
        }
        if offset < last_end {
            faults.push("an overlap");
        }
        if fills && offset > last_end {
            faults.push("a gap of an OUT");
        }
        last_end = end(packet);
    }
    if fills && last_end < length {
        faults.push("an OUT's end");
    }
    faults.sort();
    faults.dedup();
    faults
}

/// Of an isochronous completion.
pub const OF_RESULTS: [&str; 9] = [
    "packets 0 of the URB and of the completion",
    "packets 4294967295 of the URB and 0 of the completion",
    "a URB without packets",
    "one packet too few",
    "one packet too many",
    "an actual length above its packet",
    "a sum that fits modulo 2^32",
    "a sum other than the total",
    "several",
];

/// Why an isochronous completion of the URB is refused with 6.
pub fn of_results(urb: &Urb, results: &[PacketResult], total: u32) -> &'static str {
    let (packets, count) = (urb.packets.len(), results.len());
    let mut pairs = urb.packets.iter().zip(results);
    let above = pairs.any(|(packet, result)| result.actual_length > packet.length);
    let long = total > urb.transfer_buffer_length;
    let lengths = results.iter().map(|result| u64::from(result.actual_length));
    let exact: u64 = lengths.sum();
    let sums = exact == u64::from(total);
    match (urb.number_of_packets, above, long, sums) {
        (0, _, false, true) if count == 0 => "packets 0 of the URB and of the completion",
        (NOT_ISOCHRONOUS, _, false, true) if count == 0 => {
            "packets 4294967295 of the URB and 0 of the completion"
        }
        (0 | NOT_ISOCHRONOUS, _, false, true) => "a URB without packets",
        (_, false, false, true) if count + 1 == packets => "one packet too few",
        (_, false, false, true) if count == packets + 1 => "one packet too many",
        (_, true, false, true) if count == packets => "an actual length above its packet",
        // Then some actual length is above its packet, too: no transfer has as many bytes.
        (_, _, false, false) if count == packets && exact as u32 == total => {
            "a sum that fits modulo 2^32"
        }
        (_, false, false, false) if count == packets => "a sum other than the total",
        _ => "several",
    }
}

#[cfg(test)]
mod tests {
    use super::*;
    use crate::packets;
    use crate::wire::USBIP_DIR_IN;

    #[test]
    fn packets_have_a_cause_exactly_if_they_do_not_fit() {
        let numbers = [0, 1, 5, 9, 10, 11, 0x8000_0000, u32::MAX - 9, u32::MAX];
        for direction in [USBIP_DIR_IN, USBIP_DIR_OUT] {
            let submit = CmdSubmit {
                direction,
                transfer_buffer_length: 10,
                ..CmdSubmit::default()
            };
            let every = || {
                numbers
                    .iter()
                    .flat_map(|&offset| numbers.map(|length| Packet { offset, length }))
            };
            for (first, second) in every().flat_map(|one| every().map(move |two| (one, two))) {
                let list = [first, second];
                let good = packets::fit_transfer(&list, direction, 10);
                let cause = of_packets(&submit, &list);
                assert_eq!(cause.is_none(), good, "{list:?}");
                assert!(cause.is_none_or(|cause| OF_PACKETS.contains(&cause)));
            }
        }
    }
}
