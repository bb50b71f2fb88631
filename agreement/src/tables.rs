//! Export tables: as the library takes them, and at random.

use reference::random::Random;
use reference::table::{Device, Interface, BUSID_SIZE, MAX_DEVICES, MAX_INTERFACES, PATH_SIZE};
use rimemaple::sys;

/// A table of so many devices, the first of which are these; at most as many as it has places for.
pub fn flat(devices: &[Device], count: usize) -> sys::Table {
    let mut places = [flat_device(&Device::new("", "", 0, 0)); MAX_DEVICES];
    for (place, device) in places.iter_mut().zip(devices) {
        *place = flat_device(device);
    }
    sys::Table {
        devices: places,
        count,
    }
}

fn flat_device(device: &Device) -> sys::Device {
    sys::Device {
        path: device.path,
        busid: device.busid,
        busnum: device.busnum,
        devnum: device.devnum,
        speed: device.speed,
        idVendor: device.id_vendor,
        idProduct: device.id_product,
        bcdDevice: device.bcd_device,
        bDeviceClass: device.b_device_class,
        bDeviceSubClass: device.b_device_sub_class,
        bDeviceProtocol: device.b_device_protocol,
        bConfigurationValue: device.b_configuration_value,
        bNumConfigurations: device.b_num_configurations,
        bNumInterfaces: device.b_num_interfaces,
        interfaces: device.interfaces.map(flat_interface),
    }
}

fn flat_interface(interface: Interface) -> sys::Interface {
    sys::Interface {
        bInterfaceClass: interface.b_interface_class,
        bInterfaceSubClass: interface.b_interface_sub_class,
        bInterfaceProtocol: interface.b_interface_protocol,
    }
}

/// Bytes without a zero, and then zeros: at least one of each.
fn name<const SIZE: usize>(random: &mut Random, length: usize) -> [u8; SIZE] {
    let mut name = [0; SIZE];
    name[..length].fill_with(|| 1 + random.below(255) as u8);
    name
}

/// A device that keeps the rules.
pub fn device(random: &mut Random) -> Device {
    let path_length = 1 + random.below(PATH_SIZE - 1);
    let busid_length = 1 + random.below(BUSID_SIZE - 1);
    Device {
        path: name(random, path_length),
        busid: name(random, busid_length),
        busnum: 1 + random.below(65_535) as u32,
        devnum: 1 + random.below(127) as u32,
        speed: random.next_u32(),
        id_vendor: random.next_u32() as u16,
        id_product: random.next_u32() as u16,
        bcd_device: random.next_u32() as u16,
        b_device_class: random.next_u32() as u8,
        b_device_sub_class: random.next_u32() as u8,
        b_device_protocol: random.next_u32() as u8,
        b_configuration_value: random.next_u32() as u8,
        b_num_configurations: random.next_u32() as u8,
        b_num_interfaces: random.below(MAX_INTERFACES + 1) as u8,
        interfaces: [(); MAX_INTERFACES].map(|()| Interface {
            b_interface_class: random.next_u32() as u8,
            b_interface_sub_class: random.next_u32() as u8,
            b_interface_protocol: random.next_u32() as u8,
        }),
    }
}

/// Any bytes in every field.
pub fn garbage(random: &mut Random) -> Device {
    let mut device = device(random);
    device.path.fill_with(|| random.next_u32() as u8);
    device.busid.fill_with(|| random.next_u32() as u8);
    device.busnum = random.next_u32();
    device.devnum = random.next_u32();
    device.b_num_interfaces = random.next_u32() as u8;
    device
}

/// The devices, and garbage in every place behind them.
pub fn before_garbage(devices: &[Device], random: &mut Random) -> Vec<Device> {
    let mut held = devices.to_vec();
    while held.len() < MAX_DEVICES {
        held.push(garbage(random));
    }
    held
}

/// Devices that keep the rules together, by numbers and first busid bytes that are counted.
pub fn table(random: &mut Random, count: usize) -> Vec<Device> {
    (0..count)
        .map(|index| {
            let mut device = device(random);
            device.busid[0] = 1 + index as u8;
            device.busnum = 1 + (index / 100) as u32 + 256 * random.below(255) as u32;
            device.devnum = 1 + (index % 100) as u32;
            device
        })
        .collect()
}
