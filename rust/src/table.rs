//! What the box exports.

use crate::sys::{self, BUSID_LEN, MAX_DEVICES, MAX_INTERFACES, PATH_LEN};
use std::{error, fmt};

/// An interface, under its descriptor's names.
#[derive(Clone, Copy, Debug, Default, PartialEq, Eq)]
#[allow(missing_docs)]
pub struct Interface {
    pub b_interface_class: u8,
    pub b_interface_sub_class: u8,
    pub b_interface_protocol: u8,
}

/// A device, under its descriptors' names; bNumInterfaces is the length of `interfaces`.
#[derive(Clone, Debug, PartialEq, Eq)]
#[allow(missing_docs)]
pub struct Device {
    path: String,
    busid: String,
    /// 1 to 65,535.
    pub busnum: u32,
    /// 1 to 127.
    pub devnum: u32,
    /// As the kernel numbers them: 1 low, 2 full, 3 high, 5 super.
    pub speed: u32,
    pub id_vendor: u16,
    pub id_product: u16,
    pub bcd_device: u16,
    pub b_device_class: u8,
    pub b_device_sub_class: u8,
    pub b_device_protocol: u8,
    pub b_configuration_value: u8,
    pub b_num_configurations: u8,
    pub interfaces: Vec<Interface>,
}

impl Device {
    /// A device with these names and numbers, and all else 0.
    pub fn new(path: &str, busid: &str, busnum: u32, devnum: u32) -> Result<Device, Unfit> {
        if !is_name(path, PATH_LEN) {
            return Err(Unfit::Path);
        }
        if !is_name(busid, BUSID_LEN) {
            return Err(Unfit::Busid);
        }
        Ok(Device {
            path: path.to_string(),
            busid: busid.to_string(),
            busnum,
            devnum,
            speed: 0,
            id_vendor: 0,
            id_product: 0,
            bcd_device: 0,
            b_device_class: 0,
            b_device_sub_class: 0,
            b_device_protocol: 0,
            b_configuration_value: 0,
            b_num_configurations: 0,
            interfaces: Vec::new(),
        })
    }

    /// Where the device is on the box.
    pub fn path(&self) -> &str {
        &self.path
    }

    /// By which a client imports it.
    pub fn busid(&self) -> &str {
        &self.busid
    }

    /// By which an attached client names it, and [`Session::devid`](crate::Session::devid) tells which one is served.
    pub fn devid(&self) -> u64 {
        u64::from(self.busnum) * 65_536 + u64::from(self.devnum)
    }

    fn to_sys(&self) -> sys::Device {
        let mut interfaces = NO_DEVICE.interfaces;
        for (place, interface) in interfaces.iter_mut().zip(&self.interfaces) {
            *place = interface.to_sys();
        }
        sys::Device {
            path: padded(&self.path),
            busid: padded(&self.busid),
            busnum: self.busnum,
            devnum: self.devnum,
            speed: self.speed,
            idVendor: self.id_vendor,
            idProduct: self.id_product,
            bcdDevice: self.bcd_device,
            bDeviceClass: self.b_device_class,
            bDeviceSubClass: self.b_device_sub_class,
            bDeviceProtocol: self.b_device_protocol,
            bConfigurationValue: self.b_configuration_value,
            bNumConfigurations: self.b_num_configurations,
            bNumInterfaces: self.interfaces.len() as u8,
            interfaces,
        }
    }
}

impl Interface {
    fn to_sys(self) -> sys::Interface {
        sys::Interface {
            bInterfaceClass: self.b_interface_class,
            bInterfaceSubClass: self.b_interface_sub_class,
            bInterfaceProtocol: self.b_interface_protocol,
        }
    }
}

/// The export table: what a session is opened over.
#[derive(Clone, Debug, PartialEq, Eq)]
pub struct Table {
    devices: Vec<Device>,
}

impl Table {
    /// A table of these devices. Whether it keeps the rules (numbers in their ranges, no two busids and no two devids
    /// alike) is judged by [`Session::open`](crate::Session::open).
    pub fn new(devices: &[Device]) -> Result<Table, Unfit> {
        if devices.len() > MAX_DEVICES {
            return Err(Unfit::Devices);
        }
        let mut counts = devices.iter().map(|device| device.interfaces.len());
        if counts.any(|count| count > MAX_INTERFACES) {
            return Err(Unfit::Interfaces);
        }
        Ok(Table {
            devices: devices.to_vec(),
        })
    }

    /// Its devices, in order.
    pub fn devices(&self) -> &[Device] {
        &self.devices
    }

    pub(crate) fn to_sys(&self) -> sys::Table {
        let mut places = [NO_DEVICE; MAX_DEVICES];
        for (place, device) in places.iter_mut().zip(&self.devices) {
            *place = device.to_sys();
        }
        sys::Table {
            devices: places,
            count: self.devices.len(),
        }
    }
}

/// What an export table has no place for.
#[derive(Clone, Copy, Debug, PartialEq, Eq)]
pub enum Unfit {
    /// A path that is too long, empty or has a zero in it.
    Path,
    /// A busid that is too long, empty or has a zero in it.
    Busid,
    /// Too many interfaces of a device.
    Interfaces,
    /// Too many devices.
    Devices,
}

impl fmt::Display for Unfit {
    fn fmt(&self, f: &mut fmt::Formatter) -> fmt::Result {
        match self {
            Unfit::Path => write!(f, "a path has 1 to {} bytes, none of them 0", PATH_LEN - 1),
            Unfit::Busid => write!(
                f,
                "a busid has 1 to {} bytes, none of them 0",
                BUSID_LEN - 1
            ),
            Unfit::Interfaces => write!(f, "a device has at most {MAX_INTERFACES} interfaces"),
            Unfit::Devices => write!(f, "a table has at most {MAX_DEVICES} devices"),
        }
    }
}

impl error::Error for Unfit {}

/// What stands in a place that isn't in use.
const NO_DEVICE: sys::Device = sys::Device {
    path: [0; PATH_LEN],
    busid: [0; BUSID_LEN],
    busnum: 0,
    devnum: 0,
    speed: 0,
    idVendor: 0,
    idProduct: 0,
    bcdDevice: 0,
    bDeviceClass: 0,
    bDeviceSubClass: 0,
    bDeviceProtocol: 0,
    bConfigurationValue: 0,
    bNumConfigurations: 0,
    bNumInterfaces: 0,
    interfaces: [sys::Interface {
        bInterfaceClass: 0,
        bInterfaceSubClass: 0,
        bInterfaceProtocol: 0,
    }; MAX_INTERFACES],
};

/// Whether the text leaves a zero at the end of so many bytes, and has none itself.
fn is_name(text: &str, size: usize) -> bool {
    !text.is_empty() && text.len() < size && !text.contains('\0')
}

/// The text and then zeros.
fn padded<const SIZE: usize>(text: &str) -> [u8; SIZE] {
    let mut bytes = [0; SIZE];
    bytes[..text.len()].copy_from_slice(text.as_bytes());
    bytes
}
