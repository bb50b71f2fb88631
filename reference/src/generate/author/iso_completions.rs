//! What the device does with isochronous URBs, and what it mistakes for such.

use super::Author;
use crate::packets::{Packet, PacketResult};
use crate::session::Urb;
use crate::tape::{Completion, IsoCompletion};

impl Author {
    /// One that is accepted.
    pub(super) fn iso_completion(&mut self, urb: &Urb) -> IsoCompletion {
        IsoCompletion {
            ticket: urb.ticket,
            status: self.random.pick(&[0, 0, 0, -1, -63, -104, i32::MIN]),
            results: self.results(&urb.packets),
        }
    }

    fn results(&mut self, packets: &[Packet]) -> Vec<PacketResult> {
        let errors = self.random.chance(40);
        let mut result = |packet: &Packet| {
            let length = packet.length;
            let any = self.random.below(length as usize + 1) as u32;
            let actual_lengths = [0, length, length, length.saturating_sub(1), any];
            let statuses = [0, 0, -71, -1, 1, i32::MAX, i32::MIN];
            PacketResult {
                actual_length: self.random.pick(&actual_lengths),
                status: if errors {
                    self.random.pick(&statuses)
                } else {
                    0
                },
            }
        };
        packets.iter().map(&mut result).collect()
    }

    /// One with a ticket or status, or both, that won't do.
    pub(super) fn complete_iso_odd(&mut self) {
        let urb = self.pick_pending();
        let packets = urb.map_or(Vec::new(), |urb| urb.packets);
        let which = 1 + self.random.below(3);
        let ticket = match which & 1 {
            0 => self.pick_pending().map_or(1, |urb| urb.ticket),
            _ => self.odd_ticket(),
        };
        let statuses: &[i32] = match which & 2 {
            0 => &[0, -1],
            _ => &[1, 32, i32::MAX],
        };
        let completion = IsoCompletion {
            ticket,
            status: self.random.pick(statuses),
            results: self.results(&packets),
        };
        self.complete_iso(completion);
    }

    /// One that doesn't fit its URB, in one way if it can be.
    pub(super) fn complete_misfit(&mut self, urb: &Urb) {
        if !urb.is_isochronous() {
            return self.complete_wrong_iso(urb);
        }
        let mut completion = self.iso_completion(urb);
        let zeros = || vec![PacketResult::default(); urb.packets.len()];
        let which = self.random.below(urb.packets.len());
        match self.random.below(7) {
            0 => return self.complete_wrong_plain(urb),
            1 => completion.results.truncate(urb.packets.len() - 1),
            2 if urb.packets.len() < 32 => completion.results.push(PacketResult::default()),
            3 => completion.results = Vec::new(),
            4 => {
                completion.results = zeros();
                completion.results[0].actual_length = u32::MAX;
                completion.results[which].actual_length |= 1;
            }
            5 => completion.results[which].actual_length = u32::MAX,
            _ => {
                completion.results = zeros();
                completion.results[which].actual_length = urb.packets[which].length + 1;
            }
        }
        self.complete_iso(completion);
    }

    /// A plain completion for an isochronous URB, good but for that.
    fn complete_wrong_plain(&mut self, urb: &Urb) {
        let actual_lengths = [0, urb.transfer_buffer_length];
        let completion = Completion {
            ticket: urb.ticket,
            status: self.random.pick(&[0, -1]),
            actual_length: self.random.pick(&actual_lengths),
        };
        self.complete(completion);
    }

    /// An isochronous completion for a URB without packets, good but for that.
    fn complete_wrong_iso(&mut self, urb: &Urb) {
        let count = self.random.pick(&[0, 0, 1, 2, 32]);
        let mut results = vec![PacketResult::default(); count];
        if let Some(first) = results.first_mut() {
            first.actual_length = self.random.pick(&[0, urb.transfer_buffer_length]);
        }
        let completion = IsoCompletion {
            ticket: urb.ticket,
            status: self.random.pick(&[0, -1]),
            results,
        };
        self.complete_iso(completion);
    }
}
