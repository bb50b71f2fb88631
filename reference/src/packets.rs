//! The packets of an isochronous transfer: where they are, and what became of them.

use crate::wire::{IsoPacketDescriptor, DESCRIPTOR_SIZE, USBIP_DIR_OUT};

/// Where a packet is in the transfer buffer, as the request says.
#[derive(Clone, Copy, Debug, Default, PartialEq, Eq)]
pub struct Packet {
    pub offset: u32,
    pub length: u32,
}

/// What the device side says of a packet.
#[derive(Clone, Copy, Debug, Default, PartialEq, Eq)]
pub struct PacketResult {
    pub actual_length: u32,
    pub status: i32,
}

impl Packet {
    /// In 64 bits, where the sum of two fields can't wrap.
    fn end(&self) -> u64 {
        u64::from(self.offset) + u64::from(self.length)
    }

    pub fn descriptor(&self, result: PacketResult) -> IsoPacketDescriptor {
        IsoPacketDescriptor {
            offset: self.offset,
            length: self.length,
            actual_length: result.actual_length,
            status: result.status,
        }
    }
}

/// The packets of a request's descriptors, whose other two fields are read over.
pub fn read(descriptors: &[u8]) -> Vec<Packet> {
    descriptors
        .chunks_exact(DESCRIPTOR_SIZE)
        .map(IsoPacketDescriptor::read)
        .map(|IsoPacketDescriptor { offset, length, .. }| Packet { offset, length })
        .collect()
}

/// Whether the packets lie in order within a transfer buffer of this length, those of an OUT
/// without gaps from its start to its end.
pub fn fit_transfer(packets: &[Packet], direction: u32, transfer_buffer_length: u32) -> bool {
    let length = u64::from(transfer_buffer_length);
    let mut end = 0;
    for packet in packets {
        let offset = u64::from(packet.offset);
        let leaves_gap = direction == USBIP_DIR_OUT && offset != end;
        if offset < end || leaves_gap || packet.end() > length {
            return false;
        }
        end = packet.end();
    }
    direction != USBIP_DIR_OUT || end == length
}

/// Whether there is a result for each packet, none longer than the packet, with this exact sum.
pub fn fit_results(packets: &[Packet], results: &[PacketResult], total: u32) -> bool {
    let lengths = results.iter().map(|result| u64::from(result.actual_length));
    let mut pairs = packets.iter().zip(results);
    results.len() == packets.len()
        && pairs.all(|(packet, result)| result.actual_length <= packet.length)
        && lengths.sum::<u64>() == u64::from(total)
}

/// The error_count of these results.
pub fn count_errors(results: &[PacketResult]) -> u32 {
    let failed = results.iter().filter(|result| result.status != 0);
    failed.count() as u32
}

#[cfg(test)]
mod tests {
    use super::*;
    use crate::wire::{self, USBIP_DIR_IN};

    fn list(places: &[(u32, u32)]) -> Vec<Packet> {
        let packet = |&(offset, length)| Packet { offset, length };
        places.iter().map(packet).collect()
    }

    fn results(lengths: &[u32]) -> Vec<PacketResult> {
        let result = |&actual_length| PacketResult {
            actual_length,
            status: 0,
        };
        lengths.iter().map(result).collect()
    }

    #[test]
    fn descriptors_are_read_over_their_results() {
        let result = PacketResult {
            actual_length: 7,
            status: -7,
        };
        let packets = list(&[(1, 2), (u32::MAX, 3)]);
        let both: Vec<_> = packets.iter().map(|p| p.descriptor(result)).collect();
        assert_eq!(read(&wire::descriptors(&both)), packets);
    }

    #[test]
    fn in_packets_may_leave_gaps_but_not_overlap() {
        for (length, places, good) in [
            (100, &[(10, 20), (30, 0), (30, 70)][..], true),
            (100, &[(0, 100)], true),
            (100, &[(0, 0)], true),
            (100, &[(100, 0)], true),
            (100, &[(20, 0), (20, 0), (40, 1)], true),
            (0, &[(0, 0), (0, 0)], true),
            (100, &[(0, 60), (50, 50)], false),
            (100, &[(0, 60), (59, 0)], false),
            (100, &[(50, 0), (0, 50)], false),
            (100, &[(60, 41)], false),
            (100, &[(101, 0)], false),
            (100, &[(0, 101)], false),
            (100, &[(0, 50), (60, 41)], false),
        ] {
            assert_eq!(
                fit_transfer(&list(places), USBIP_DIR_IN, length),
                good,
                "{places:?} in {length}"
            );
        }
    }

    #[test]
    fn out_packets_fill_the_buffer() {
        for (length, places, good) in [
            (100, &[(0, 50), (50, 50)][..], true),
            (100, &[(0, 0), (0, 100), (100, 0)], true),
            (0, &[(0, 0), (0, 0)], true),
            (100, &[(0, 50), (50, 49)], false),
            (100, &[(0, 50), (51, 49)], false),
            (100, &[(0, 50), (49, 51)], false),
            (100, &[(1, 99)], false),
            (100, &[(0, 101)], false),
            (100, &[(0, 50), (50, 51)], false),
            (100, &[(0, 0)], false),
        ] {
            assert_eq!(
                fit_transfer(&list(places), USBIP_DIR_OUT, length),
                good,
                "{places:?} of {length}"
            );
        }
    }

    #[test]
    fn sums_of_a_packet_are_exact() {
        for (offset, packet_length, length) in [
            (u32::MAX, 1, 0),
            (1, u32::MAX, 0),
            (u32::MAX, 2, 1),
            (0xffff_fff0, 0x20, 0x10),
            (u32::MAX, u32::MAX, 61_440),
        ] {
            let packets = list(&[(offset, packet_length)]);
            assert!(!fit_transfer(&packets, USBIP_DIR_IN, length));
            assert!(!fit_transfer(&packets, USBIP_DIR_OUT, length));
        }
        let wrapped = list(&[(0, 1), (1, u32::MAX), (0, 1)]);
        assert!(!fit_transfer(&wrapped, USBIP_DIR_OUT, 1));
    }

    #[test]
    fn results_are_one_a_packet_within_it_and_sum_up() {
        let packets = list(&[(0, 10), (10, 0), (20, 30)]);
        for (lengths, total, good) in [
            (&[10, 0, 30][..], 40, true),
            (&[0, 0, 0], 0, true),
            (&[9, 0, 30], 39, true),
            (&[10, 0, 30], 39, false),
            (&[10, 0, 30], 41, false),
            (&[11, 0, 29], 40, false),
            (&[10, 1, 29], 40, false),
            (&[10, 0, 31], 41, false),
            (&[10, 0], 10, false),
            (&[10, 0, 30, 0], 40, false),
            (&[], 0, false),
        ] {
            assert_eq!(
                fit_results(&packets, &results(lengths), total),
                good,
                "{lengths:?} for {total}"
            );
        }
    }

    #[test]
    fn sums_of_results_are_exact() {
        let packets = list(&[(0, u32::MAX), (0, u32::MAX)]);
        assert!(!fit_results(&packets, &results(&[u32::MAX, 1]), 0));
        assert!(fit_results(&packets, &results(&[u32::MAX, 0]), u32::MAX));
    }

    #[test]
    fn every_status_but_0_is_an_error() {
        let result = |status| PacketResult {
            actual_length: 0,
            status,
        };
        assert_eq!(count_errors(&[]), 0);
        let statuses = [0, 1, -1, i32::MIN, 0, i32::MAX].map(result);
        assert_eq!(count_errors(&statuses), 4);
    }
}
