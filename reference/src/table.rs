//! The export table: devices and the rules that a table has to follow.

pub const PATH_SIZE: usize = 256;
pub const BUSID_SIZE: usize = 32;
pub const MAX_DEVICES: usize = 16;
pub const MAX_INTERFACES: usize = 16;
pub const MAX_BUSNUM: u32 = 65_535;
pub const MAX_DEVNUM: u32 = 127;

#[derive(Clone, Copy, Debug, Default, PartialEq, Eq)]
pub struct Interface {
    pub b_interface_class: u8,
    pub b_interface_sub_class: u8,
    pub b_interface_protocol: u8,
}

#[derive(Clone, Debug, PartialEq, Eq)]
pub struct Device {
    pub path: [u8; PATH_SIZE],
    pub busid: [u8; BUSID_SIZE],
    pub busnum: u32,
    pub devnum: u32,
    pub speed: u32,
    pub id_vendor: u16,
    pub id_product: u16,
    pub bcd_device: u16,
    pub b_device_class: u8,
    pub b_device_sub_class: u8,
    pub b_device_protocol: u8,
    pub b_configuration_value: u8,
    pub b_num_configurations: u8,
    pub b_num_interfaces: u8,
    /// Those past `b_num_interfaces` are free and never sent.
    pub interfaces: [Interface; MAX_INTERFACES],
}

impl Device {
    /// A device with these names and numbers, all else 0.
    pub fn new(path: &str, busid: &str, busnum: u32, devnum: u32) -> Device {
        Device {
            path: padded(path.as_bytes()),
            busid: padded(busid.as_bytes()),
            busnum,
            devnum,
            speed: 0,
            id_vendor: 0,
            id_product: 0,
            bcd_device: 0,
            b_device_class: 0,
            b_device_sub_class: 0,
            b_device_protocol: 0,
            b_configuration_value: 0,
            b_num_configurations: 0,
            b_num_interfaces: 0,
            interfaces: [Interface::default(); MAX_INTERFACES],
        }
    }

    /// How submits name the device; the table rules keep devnum out of busnum's half.
    pub fn devid(&self) -> u32 {
        self.busnum << 16 | self.devnum
    }

    fn follows_rules(&self) -> bool {
        is_name(&self.path)
            && is_name(&self.busid)
            && (1..=MAX_BUSNUM).contains(&self.busnum)
            && (1..=MAX_DEVNUM).contains(&self.devnum)
            && usize::from(self.b_num_interfaces) <= MAX_INTERFACES
    }

    fn is_distinct_from(&self, other: &Device) -> bool {
        self.busid != other.busid && (self.busnum, self.devnum) != (other.busnum, other.devnum)
    }
}

pub fn follows_rules(devices: &[Device]) -> bool {
    devices.len() <= MAX_DEVICES
        && devices.iter().all(Device::follows_rules)
        && devices.iter().enumerate().all(|(index, device)| {
            let mut earlier = devices[..index].iter();
            earlier.all(|other| device.is_distinct_from(other))
        })
}

/// The first device whose busid bytes all match.
pub fn find(devices: &[Device], busid: &[u8]) -> Option<usize> {
    devices.iter().position(|device| device.busid == busid)
}

/// The text and then zeros.
pub fn padded<const SIZE: usize>(text: &[u8]) -> [u8; SIZE] {
    let mut name = [0; SIZE];
    name[..text.len()].copy_from_slice(text);
    name
}

/// Starts with a non-zero byte, has a zero byte, and only zeros after the first one.
fn is_name(bytes: &[u8]) -> bool {
    match bytes.iter().position(|&byte| byte == 0) {
        None | Some(0) => false,
        Some(end) => bytes[end..].iter().all(|&byte| byte == 0),
    }
}

#[cfg(test)]
mod tests {
    use super::*;

    fn numbered(index: u32) -> Device {
        Device::new("/deck", &format!("1-{index}"), 1, index)
    }

    fn alone(change: impl Fn(&mut Device)) -> bool {
        let mut device = numbered(1);
        change(&mut device);
        follows_rules(&[device])
    }

    #[test]
    fn from_none_to_sixteen_devices() {
        let devices: Vec<Device> = (1..=17).map(numbered).collect();
        assert!(follows_rules(&[]));
        assert!(follows_rules(&devices[..16]));
        assert!(!follows_rules(&devices));
    }

    #[test]
    fn names_start_end_and_are_padded() {
        assert!(alone(|device| device.path = padded(&[b'p'; 255])));
        assert!(!alone(|device| device.path = [b'p'; PATH_SIZE]));
        assert!(!alone(|device| device.path = [0; PATH_SIZE]));
        assert!(!alone(|device| device.path[PATH_SIZE - 1] = 1));
        assert!(alone(|device| device.busid = padded(&[0xff; 31])));
        assert!(!alone(|device| device.busid = [b'b'; BUSID_SIZE]));
        assert!(!alone(|device| device.busid = [0; BUSID_SIZE]));
        assert!(!alone(|device| device.busid[BUSID_SIZE - 1] = 1));
        assert!(!alone(|device| device.busid[0] = 0));
    }

    #[test]
    fn numbers_at_their_limits() {
        for (busnum, good) in [(0, false), (1, true), (65_535, true), (65_536, false)] {
            assert_eq!(alone(|device| device.busnum = busnum), good, "{busnum}");
        }
        for (devnum, good) in [(0, false), (1, true), (127, true), (128, false)] {
            assert_eq!(alone(|device| device.devnum = devnum), good, "{devnum}");
        }
        for (count, good) in [(0, true), (16, true), (17, false), (255, false)] {
            assert_eq!(
                alone(|device| device.b_num_interfaces = count),
                good,
                "{count}"
            );
        }
    }

    #[test]
    fn other_numbers_are_free() {
        assert!(alone(|device| {
            device.speed = u32::MAX;
            device.id_vendor = u16::MAX;
            device.bcd_device = u16::MAX;
            device.b_configuration_value = u8::MAX;
            device.b_num_configurations = u8::MAX;
            device.interfaces[15].b_interface_class = u8::MAX;
        }));
    }

    #[test]
    fn any_two_devices_differ_in_busid_and_in_number() {
        let change_last = |change: fn(&mut Device)| {
            let mut devices: Vec<Device> = (1..=16).map(numbered).collect();
            change(&mut devices[15]);
            follows_rules(&devices)
        };
        assert!(!change_last(|device| device.busid = padded(b"1-1")));
        assert!(!change_last(|device| device.devnum = 1));
        assert!(change_last(|device| (device.busnum, device.devnum) = (2, 1)));
        assert!(change_last(|device| device.path = padded(b"/deck")));
    }
}
