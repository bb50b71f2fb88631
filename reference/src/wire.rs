//! Fields, messages and replies, at the offsets that the protocol's tables give. All big-endian.

use crate::table::{padded, Device, BUSID_SIZE};

pub const USBIP_VERSION: u16 = 0x0111;
pub const OP_REQ_DEVLIST: u16 = 0x8005;
pub const OP_REQ_IMPORT: u16 = 0x8003;
pub const OP_REP_DEVLIST: u16 = 0x0005;
pub const OP_REP_IMPORT: u16 = 0x0003;

pub const USBIP_CMD_SUBMIT: u32 = 1;
pub const USBIP_CMD_UNLINK: u32 = 2;
pub const USBIP_RET_SUBMIT: u32 = 3;
pub const USBIP_RET_UNLINK: u32 = 4;

pub const USBIP_DIR_OUT: u32 = 0;
pub const USBIP_DIR_IN: u32 = 1;

/// number_of_packets of a transfer that isn't isochronous; 0 is taken as well.
pub const NOT_ISOCHRONOUS: u32 = 0xffff_ffff;
/// The most packets of an isochronous transfer.
pub const MAX_PACKETS: u32 = 32;

/// The transfer_flags bit of a client that doesn't take a short read as good.
pub const URB_SHORT_NOT_OK: u32 = 0x0000_0001;

/// Version, code and status, with which every request and its reply start.
pub const OP_COMMON_SIZE: usize = 8;
pub const OP_REQ_IMPORT_SIZE: usize = OP_COMMON_SIZE + BUSID_SIZE;
pub const DEVICE_SIZE: usize = 312;
/// What every message has first once a device is attached.
pub const HEADER_SIZE: usize = 48;
/// An iso_packet_descriptor.
pub const DESCRIPTOR_SIZE: usize = 16;

pub const IMPORT_OK: u32 = 0;
pub const IMPORT_ERROR: u32 = 1;

const HEADER_WORDS: usize = HEADER_SIZE / 4;

pub fn be16(bytes: &[u8], offset: usize) -> u16 {
    u16::from_be_bytes([bytes[offset], bytes[offset + 1]])
}

pub fn be32(bytes: &[u8], offset: usize) -> u32 {
    u32::from(be16(bytes, offset)) << 16 | u32::from(be16(bytes, offset + 2))
}

pub fn be64(bytes: &[u8], offset: usize) -> u64 {
    u64::from(be32(bytes, offset)) << 32 | u64::from(be32(bytes, offset + 4))
}

#[derive(Clone, Copy, Debug, Default, PartialEq, Eq)]
pub struct CmdSubmit {
    pub seqnum: u32,
    pub devid: u32,
    pub direction: u32,
    pub ep: u32,
    pub transfer_flags: u32,
    pub transfer_buffer_length: u32,
    pub start_frame: u32,
    pub number_of_packets: u32,
    pub interval: u32,
    pub setup: [u8; 8],
}

/// What isn't here is padding, as are direction and ep: all 0.
#[derive(Clone, Copy, Debug, Default, PartialEq, Eq)]
pub struct CmdUnlink {
    pub seqnum: u32,
    pub devid: u32,
    pub direction: u32,
    pub ep: u32,
    pub unlink_seqnum: u32,
}

#[derive(Clone, Copy, Debug, PartialEq, Eq)]
pub enum Command {
    Submit(CmdSubmit),
    Unlink(CmdUnlink),
}

impl Command {
    /// Nothing if the command is neither submit nor unlink.
    pub fn read(header: &[u8]) -> Option<Command> {
        match be32(header, 0) {
            USBIP_CMD_SUBMIT => Some(Command::Submit(CmdSubmit::read(header))),
            USBIP_CMD_UNLINK => Some(Command::Unlink(CmdUnlink::read(header))),
            _ => None,
        }
    }
}

impl CmdSubmit {
    fn read(header: &[u8]) -> CmdSubmit {
        CmdSubmit {
            seqnum: be32(header, 0x04),
            devid: be32(header, 0x08),
            direction: be32(header, 0x0c),
            ep: be32(header, 0x10),
            transfer_flags: be32(header, 0x14),
            transfer_buffer_length: be32(header, 0x18),
            start_frame: be32(header, 0x1c),
            number_of_packets: be32(header, 0x20),
            interval: be32(header, 0x24),
            setup: be64(header, 0x28).to_be_bytes(),
        }
    }

    pub fn header(&self) -> [u8; HEADER_SIZE] {
        header([
            USBIP_CMD_SUBMIT,
            self.seqnum,
            self.devid,
            self.direction,
            self.ep,
            self.transfer_flags,
            self.transfer_buffer_length,
            self.start_frame,
            self.number_of_packets,
            self.interval,
            be32(&self.setup, 0),
            be32(&self.setup, 4),
        ])
    }

    /// How many bytes of OUT data follow the header.
    pub fn data_size(&self) -> usize {
        match self.direction {
            USBIP_DIR_OUT => self.transfer_buffer_length as usize,
            _ => 0,
        }
    }

    /// How many packet descriptors follow the data.
    pub fn packet_count(&self) -> usize {
        match self.number_of_packets {
            1..=MAX_PACKETS => self.number_of_packets as usize,
            _ => 0,
        }
    }

    /// All that follows the header.
    pub fn body_size(&self) -> usize {
        self.data_size() + self.packet_count() * DESCRIPTOR_SIZE
    }
}

/// Says of one packet where it is in the transfer buffer and, in a reply, what became of it.
#[derive(Clone, Copy, Debug, Default, PartialEq, Eq)]
pub struct IsoPacketDescriptor {
    pub offset: u32,
    pub length: u32,
    pub actual_length: u32,
    pub status: i32,
}

impl IsoPacketDescriptor {
    /// Of 16 bytes.
    pub fn read(bytes: &[u8]) -> IsoPacketDescriptor {
        IsoPacketDescriptor {
            offset: be32(bytes, 0),
            length: be32(bytes, 4),
            actual_length: be32(bytes, 8),
            status: be32(bytes, 12) as i32,
        }
    }

    pub fn bytes(&self) -> [u8; DESCRIPTOR_SIZE] {
        let status = self.status as u32;
        let words = [self.offset, self.length, self.actual_length, status];
        let mut bytes = [0; DESCRIPTOR_SIZE];
        write_words(&mut bytes, &words);
        bytes
    }
}

/// The descriptors one after another, as a request or a reply has them.
pub fn descriptors(list: &[IsoPacketDescriptor]) -> Vec<u8> {
    list.iter().flat_map(IsoPacketDescriptor::bytes).collect()
}

impl CmdUnlink {
    fn read(header: &[u8]) -> CmdUnlink {
        CmdUnlink {
            seqnum: be32(header, 0x04),
            devid: be32(header, 0x08),
            direction: be32(header, 0x0c),
            ep: be32(header, 0x10),
            unlink_seqnum: be32(header, 0x14),
        }
    }

    /// The offset of the first byte that isn't 0 and has to be: of direction or ep, or after
    /// unlink_seqnum.
    pub fn dirty_padding(header: &[u8]) -> Option<usize> {
        let mut padding = (0x0c..0x14).chain(0x18..HEADER_SIZE);
        padding.find(|&offset| header[offset] != 0)
    }

    pub fn header(&self) -> [u8; HEADER_SIZE] {
        let words = [
            USBIP_CMD_UNLINK,
            self.seqnum,
            self.devid,
            self.direction,
            self.ep,
            self.unlink_seqnum,
        ];
        header(padded_words(&words))
    }
}

/// The answer to a submit, or a device's return of its URB.
#[derive(Clone, Copy, Debug, PartialEq, Eq)]
pub struct RetSubmit {
    pub seqnum: u32,
    pub status: i32,
    pub actual_length: u32,
    pub start_frame: u32,
    pub number_of_packets: u32,
    pub error_count: u32,
}

impl RetSubmit {
    pub fn header(&self) -> [u8; HEADER_SIZE] {
        let words = [
            USBIP_RET_SUBMIT,
            self.seqnum,
            0,
            0,
            0,
            self.status as u32,
            self.actual_length,
            self.start_frame,
            self.number_of_packets,
            self.error_count,
        ];
        header(padded_words(&words))
    }
}

pub fn ret_unlink(seqnum: u32, status: i32) -> [u8; HEADER_SIZE] {
    header(padded_words(&[
        USBIP_RET_UNLINK,
        seqnum,
        0,
        0,
        0,
        status as u32,
    ]))
}

pub fn op_req_devlist() -> Vec<u8> {
    op_common(OP_REQ_DEVLIST, 0)
}

pub fn op_req_import(busid: &[u8; BUSID_SIZE]) -> Vec<u8> {
    let mut request = op_common(OP_REQ_IMPORT, 0);
    request.extend(busid);
    request
}

/// The request for a busid given as text of at most 32 bytes.
pub fn op_req_import_of(busid: &str) -> Vec<u8> {
    op_req_import(&padded(busid.as_bytes()))
}

pub fn op_rep_devlist(devices: &[Device]) -> Vec<u8> {
    let mut reply = op_common(OP_REP_DEVLIST, 0);
    reply.extend((devices.len() as u32).to_be_bytes());
    for device in devices {
        reply.extend(device_record(device));
        let sent = usize::from(device.b_num_interfaces);
        for interface in &device.interfaces[..sent] {
            reply.extend([
                interface.b_interface_class,
                interface.b_interface_sub_class,
                interface.b_interface_protocol,
                0,
            ]);
        }
    }
    reply
}

pub fn op_rep_import(device: Option<&Device>) -> Vec<u8> {
    let Some(device) = device else {
        return op_common(OP_REP_IMPORT, IMPORT_ERROR);
    };
    let mut reply = op_common(OP_REP_IMPORT, IMPORT_OK);
    reply.extend(device_record(device));
    reply
}

fn op_common(code: u16, status: u32) -> Vec<u8> {
    let mut common = Vec::new();
    common.extend(USBIP_VERSION.to_be_bytes());
    common.extend(code.to_be_bytes());
    common.extend(status.to_be_bytes());
    common
}

fn device_record(device: &Device) -> Vec<u8> {
    let mut record = Vec::with_capacity(DEVICE_SIZE);
    record.extend(device.path);
    record.extend(device.busid);
    for word in [device.busnum, device.devnum, device.speed] {
        record.extend(word.to_be_bytes());
    }
    for half in [device.id_vendor, device.id_product, device.bcd_device] {
        record.extend(half.to_be_bytes());
    }
    record.extend([
        device.b_device_class,
        device.b_device_sub_class,
        device.b_device_protocol,
        device.b_configuration_value,
        device.b_num_configurations,
        device.b_num_interfaces,
    ]);
    record
}

fn padded_words(words: &[u32]) -> [u32; HEADER_WORDS] {
    let mut all = [0; HEADER_WORDS];
    all[..words.len()].copy_from_slice(words);
    all
}

fn header(words: [u32; HEADER_WORDS]) -> [u8; HEADER_SIZE] {
    let mut header = [0; HEADER_SIZE];
    write_words(&mut header, &words);
    header
}

fn write_words(bytes: &mut [u8], words: &[u32]) {
    for (field, word) in bytes.chunks_exact_mut(4).zip(words) {
        field.copy_from_slice(&word.to_be_bytes());
    }
}

#[cfg(test)]
mod tests {
    use super::*;
    use crate::capture::*;
    use crate::table::Interface;

    fn intr_in() -> CmdSubmit {
        CmdSubmit {
            seqnum: 0xd05,
            devid: 0x0001_000f,
            direction: USBIP_DIR_IN,
            ep: 1,
            transfer_flags: 0x200,
            transfer_buffer_length: 64,
            start_frame: 0xffff_ffff,
            number_of_packets: 0,
            interval: 4,
            setup: [0; 8],
        }
    }

    /// A device whose fields are all different.
    fn camera() -> Device {
        let mut device = Device::new("/sys/3-2", "3-2", 3, 2);
        device.speed = 0x0405_0607;
        (device.id_vendor, device.id_product) = (0x0809, 0x0a0b);
        device.bcd_device = 0x0c0d;
        (
            device.b_device_class,
            device.b_device_sub_class,
            device.b_device_protocol,
        ) = (0x11, 0x12, 0x13);
        (device.b_configuration_value, device.b_num_configurations) = (0x14, 0x15);
        device.b_num_interfaces = 2;
        device.interfaces[1] = Interface {
            b_interface_class: 0x21,
            b_interface_sub_class: 0x22,
            b_interface_protocol: 0x23,
        };
        device.interfaces[2].b_interface_class = 0xff;
        device
    }

    #[test]
    fn fields_are_big_endian() {
        let bytes = [0, 1, 2, 3, 4, 5, 6, 7, 8];
        assert_eq!(be16(&bytes, 1), 0x0102);
        assert_eq!(be32(&bytes, 1), 0x0102_0304);
        assert_eq!(be64(&bytes, 1), 0x0102_0304_0506_0708);
    }

    #[test]
    fn captured_commands_read_and_write() {
        let header = bytes(CMD_INTR_IN);
        assert_eq!(Command::read(&header), Some(Command::Submit(intr_in())));
        assert_eq!(intr_in().header().to_vec(), header);
        let Some(Command::Submit(out)) = Command::read(&bytes(CMD_INTR_OUT)) else {
            panic!("not a submit");
        };
        assert_eq!(out.header().to_vec(), bytes(CMD_INTR_OUT));
        assert_eq!(out.data_size(), bytes(CMD_INTR_OUT_DATA).len());
    }

    #[test]
    fn every_field_has_its_own_place() {
        let header: Vec<u8> = (0..48).collect();
        let submit = CmdSubmit::read(&header);
        assert_eq!(submit.seqnum, 0x0405_0607);
        assert_eq!(submit.ep, 0x1011_1213);
        assert_eq!(submit.interval, 0x2425_2627);
        assert_eq!(submit.setup, [40, 41, 42, 43, 44, 45, 46, 47]);
        assert_eq!(submit.header()[4..], header[4..]);
        let unlink = CmdUnlink::read(&header);
        assert_eq!(unlink.unlink_seqnum, 0x1415_1617);
        assert_eq!(unlink.header()[4..24], header[4..24]);
        assert_eq!(unlink.header()[24..], [0; 24]);
    }

    #[test]
    fn an_unlinks_padding_is_32_of_its_bytes() {
        for offset in 0..HEADER_SIZE {
            let mut header = CmdUnlink::default().header();
            header[offset] = 1;
            let padding = matches!(offset, 12..=19 | 24..=47);
            let dirty = padding.then_some(offset);
            assert_eq!(CmdUnlink::dirty_padding(&header), dirty, "{offset}");
            header[offset..].fill(0xff);
            if padding {
                assert_eq!(CmdUnlink::dirty_padding(&header), dirty, "{offset} and on");
            }
        }
    }

    #[test]
    fn other_commands_are_nothing() {
        for command in [0, 3, 4, 0x0100_0000, 0x8005, u32::MAX] {
            assert_eq!(Command::read(&header(padded_words(&[command]))), None);
        }
    }

    #[test]
    fn captured_replies_are_written() {
        let mut ret = RetSubmit {
            seqnum: 0xd06,
            status: 0,
            actual_length: 64,
            start_frame: 0xffff_ffff,
            number_of_packets: 0,
            error_count: 0,
        };
        assert_eq!(ret.header().to_vec(), bytes(RET_INTR_OUT));
        ret.seqnum = 0xd05;
        assert_eq!(ret.header().to_vec(), bytes(RET_INTR_IN));
    }

    #[test]
    fn a_return_has_its_error_count_at_36() {
        let ret = RetSubmit {
            seqnum: 1,
            status: -2,
            actual_length: 3,
            start_frame: 4,
            number_of_packets: 5,
            error_count: 6,
        };
        let words = "00000003 00000001 00000000 00000000 00000000 fffffffe 00000003 00000004 00000005 00000006 00000000 00000000";
        assert_eq!(ret.header().to_vec(), bytes(words));
    }

    #[test]
    fn a_descriptor_has_four_words() {
        let words = bytes("01020304 05060708 090a0b0c fffffffe");
        let descriptor = IsoPacketDescriptor {
            offset: 0x0102_0304,
            length: 0x0506_0708,
            actual_length: 0x090a_0b0c,
            status: -2,
        };
        assert_eq!(IsoPacketDescriptor::read(&words), descriptor);
        assert_eq!(descriptor.bytes().to_vec(), words);
        let two = [IsoPacketDescriptor::default(), descriptor];
        assert_eq!(descriptors(&two), [vec![0; 16], words].concat());
    }

    #[test]
    fn what_follows_a_header_is_data_and_a_descriptor_a_packet() {
        for (direction, number_of_packets, data, packets) in [
            (USBIP_DIR_IN, 0, 0, 0),
            (USBIP_DIR_IN, 1, 0, 1),
            (USBIP_DIR_IN, 32, 0, 32),
            (USBIP_DIR_IN, 33, 0, 0),
            (USBIP_DIR_IN, NOT_ISOCHRONOUS, 0, 0),
            (USBIP_DIR_OUT, 0, 64, 0),
            (USBIP_DIR_OUT, 32, 64, 32),
            (USBIP_DIR_OUT, NOT_ISOCHRONOUS, 64, 0),
        ] {
            let submit = CmdSubmit {
                direction,
                number_of_packets,
                ..intr_in()
            };
            assert_eq!(submit.data_size(), data);
            assert_eq!(submit.packet_count(), packets);
            assert_eq!(submit.body_size(), data + 16 * packets);
        }
    }

    #[test]
    fn ret_unlink_has_a_signed_status() {
        let words = "00000004 00000d07 00000000 00000000 00000000 ffffff98 00000000 00000000 00000000 00000000 00000000 00000000";
        assert_eq!(ret_unlink(0xd07, -104).to_vec(), bytes(words));
    }

    #[test]
    fn requests_are_as_tabled() {
        assert_eq!(op_req_devlist(), [1, 0x11, 0x80, 5, 0, 0, 0, 0]);
        let request = op_req_import_of("1-1");
        assert_eq!(request.len(), OP_REQ_IMPORT_SIZE);
        assert_eq!(request[..12], *b"\x01\x11\x80\x03\0\0\0\x001-1\0");
    }

    #[test]
    fn list_of_an_empty_table() {
        let reply = bytes("01110005 00000000 00000000");
        assert_eq!(op_rep_devlist(&[]), reply);
    }

    #[test]
    fn devices_of_a_list_are_straight_after_one_another() {
        let other = Device::new("/sys/3-3", "3-3", 3, 3);
        let reply = op_rep_devlist(&[camera(), other]);
        assert_eq!(reply.len(), 12 + (312 + 2 * 4) + 312);
        assert_eq!(reply[..12], bytes("01110005 00000000 00000002"));
        assert_eq!(reply[12..20], *b"/sys/3-2");
        assert_eq!(reply[0x10c..0x110], *b"3-2\0");
        assert_eq!(
            reply[0x12c..0x144],
            bytes("00000003 00000002 04050607 0809 0a0b 0c0d 11 12 13 14 15 02")
        );
        assert_eq!(reply[0x144..0x14c], bytes("00000000 21222300"));
        assert_eq!(reply[0x14c..0x154], *b"/sys/3-3");
    }

    #[test]
    fn the_longest_list_has_6028_bytes() {
        let mut device = camera();
        device.b_num_interfaces = 16;
        assert_eq!(op_rep_devlist(&vec![device; 16]).len(), 6_028);
    }

    #[test]
    fn import_replies_with_lengths_deciding_the_offsets() {
        assert_eq!(op_rep_import(None), bytes("01110003 00000001"));
        let reply = op_rep_import(Some(&camera()));
        assert_eq!(reply.len(), 320);
        assert_eq!(reply[..8], bytes("01110003 00000000"));
        assert_eq!(reply[0x108..0x10c], *b"3-2\0");
        assert_eq!(reply[0x138..0x13a], [0x0c, 0x0d]);
        assert_eq!(reply[0x13a], 0x11);
        assert_eq!(reply[0x13f], 2);
    }
}
