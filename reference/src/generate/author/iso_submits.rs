//! Packets of the submits that a client sends.

use super::Author;
use crate::packets::Packet;
use crate::wire::{CmdSubmit, IsoPacketDescriptor, USBIP_DIR_IN, USBIP_DIR_OUT};

const COUNTS: [u32; 9] = [1, 1, 2, 2, 3, 4, 8, 31, 32];

impl Author {
    pub(super) fn packet_count(&mut self) -> u32 {
        self.random.pick(&COUNTS)
    }

    /// Packets that the transfer may have: in order, and those of an OUT without gaps.
    pub(super) fn good_packets(&mut self, submit: &CmdSubmit) -> Vec<Packet> {
        let count = submit.packet_count();
        let fills = submit.direction == USBIP_DIR_OUT;
        let mut packets = Vec::new();
        let mut end = 0;
        for left in (1..=count as u32).rev() {
            let room = submit.transfer_buffer_length - end;
            let gap = match self.random.chance(30) {
                true if !fills => self.random.below(room as usize + 1) as u32,
                _ => 0,
            };
            let room = room - gap;
            let any = self.random.below(room as usize + 1) as u32;
            let length = match left {
                1 if fills => room,
                _ => self.random.pick(&[0, room / left, room / left, any]),
            };
            let offset = end + gap;
            packets.push(Packet { offset, length });
            end = offset + length;
        }
        packets
    }

    /// Descriptors with the two fields that are read over mostly 0.
    pub(super) fn descriptors(&mut self, packets: &[Packet]) -> Vec<IsoPacketDescriptor> {
        let dirty = self.random.chance(20);
        let mut descriptor = |packet: &Packet| IsoPacketDescriptor {
            offset: packet.offset,
            length: packet.length,
            actual_length: if dirty { self.random.next_u32() } else { 0 },
            status: if dirty {
                self.random.next_u32() as i32
            } else {
                0
            },
        };
        packets.iter().map(&mut descriptor).collect()
    }

    /// An isochronous submit with one fault in its packets, maybe with others before or after.
    pub(super) fn submit_bad_packets(&mut self) {
        let mut submit = self.submit();
        submit.transfer_buffer_length = self.random.pick(&[64, 65, 200]);
        submit.number_of_packets = self.random.pick(&[2, 2, 3, 8, 32]);
        let packets = self.bad_packets(&mut submit);
        if self.random.chance(10) {
            submit.devid ^= 1;
        }
        if self.random.chance(10) {
            submit.ep = 16;
        }
        let message = self.with_packets(&submit, &packets);
        self.stream(message);
    }

    fn bad_packets(&mut self, submit: &mut CmdSubmit) -> Vec<Packet> {
        let mut packets = even_packets(submit);
        let last = packets.len() - 1;
        let fault = self.random.below(9);
        submit.direction = match fault {
            0..=4 => USBIP_DIR_IN,
            5..=7 => USBIP_DIR_OUT,
            _ => submit.direction,
        };
        match fault {
            0 => packets[last].length += 1,
            1 => packets[1].offset -= 1,
            2 => packets.swap(0, 1),
            3 => packets[last] = self.wrapping_packet(submit.transfer_buffer_length),
            4 => packets[last] = past_end(submit.transfer_buffer_length),
            5 => packets[last].length -= 1,
            6 => shift(&mut packets[last]),
            7 => shift(&mut packets[0]),
            _ => packets.fill_with(|| Packet {
                offset: self.random.next_u32(),
                length: self.random.next_u32(),
            }),
        }
        packets
    }

    /// One whose end is past 2^32 and, modulo 2^32, within the transfer buffer.
    fn wrapping_packet(&mut self, transfer_buffer_length: u32) -> Packet {
        let over = self.random.pick(&[0, 1, transfer_buffer_length]);
        let before = self.random.pick(&[1, 2, 16]);
        Packet {
            offset: 0_u32.wrapping_sub(before),
            length: before + over,
        }
    }
}

/// Packets of about the same length, at least 1, that fill the transfer buffer.
fn even_packets(submit: &CmdSubmit) -> Vec<Packet> {
    let length = submit.transfer_buffer_length / submit.number_of_packets;
    let mut packets: Vec<Packet> = (0..submit.number_of_packets)
        .map(|index| Packet {
            offset: index * length,
            length,
        })
        .collect();
    let last = packets.len() - 1;
    packets[last].length = submit.transfer_buffer_length - packets[last].offset;
    packets
}

/// Empty, and yet outside of the transfer buffer.
fn past_end(transfer_buffer_length: u32) -> Packet {
    Packet {
        offset: transfer_buffer_length + 1,
        length: 0,
    }
}

/// Leaves a gap in front and ends where it did.
fn shift(packet: &mut Packet) {
    packet.offset += 1;
    packet.length -= 1;
}
