//! Export tables: what has a place in one, and what open refuses.

use rimemaple::{
    Device, Event, Interface, Refusal, Session, Table, Unfit, MAX_DEVICES, REPLY_LEN, WORK_LEN,
};

fn numbered(devnum: u32) -> Device {
    Device::new("/deck", &format!("1-{devnum}"), 1, devnum).expect("the names fit")
}

fn open(devices: &[Device]) -> Result<Session, Refusal> {
    Session::open(&Table::new(devices).expect("the devices fit"))
}

#[test]
fn names_leave_room_for_a_zero() {
    let named = |path: &str, busid: &str| Device::new(path, busid, 1, 1).map(|_| ());
    let (path, busid) = ("p".repeat(255), "b".repeat(31));
    assert_eq!(named(&path, &busid), Ok(()));
    for path in ["", "/deck\0", &"p".repeat(256)] {
        assert_eq!(named(path, &busid), Err(Unfit::Path));
    }
    for busid in ["", "1\0-1", &"b".repeat(32)] {
        assert_eq!(named(&path, busid), Err(Unfit::Busid));
    }
}

#[test]
fn a_table_has_16_places_and_a_device_too() {
    let devices: Vec<Device> = (1..=17).map(numbered).collect();
    assert!(open(&devices[..MAX_DEVICES]).is_ok());
    let table = Table::new(&devices[..MAX_DEVICES]).unwrap();
    assert_eq!(table.devices(), &devices[..MAX_DEVICES]);
    assert_eq!(Table::new(&devices), Err(Unfit::Devices));
    let mut camera = numbered(1);
    camera.interfaces = vec![Interface::default(); 16];
    assert!(open(&[camera.clone()]).is_ok());
    camera.interfaces.push(Interface::default());
    assert_eq!(Table::new(&[camera]), Err(Unfit::Interfaces));
}

#[test]
fn open_refuses_what_breaks_a_rule() {
    for (busnum, devnum) in [(0, 1), (65_536, 1), (1, 0), (1, 128)] {
        let device = Device::new("/deck", "1-1", busnum, devnum).unwrap();
        assert_eq!(open(&[device]), Err(Refusal::BAD_TABLE));
    }
    let mut second = numbered(2);
    second.devnum = 1;
    assert_eq!(open(&[numbered(1), second]), Err(Refusal::BAD_TABLE));
    assert_eq!(open(&[numbered(1), numbered(1)]), Err(Refusal::BAD_TABLE));
}

#[test]
fn every_field_of_a_device_is_listed() {
    let mut camera = Device::new("/sys/3-2", "3-2", 3, 2).unwrap();
    camera.speed = 0x0405_0607;
    (camera.id_vendor, camera.id_product, camera.bcd_device) = (0x0809, 0x0a0b, 0x0c0d);
    (camera.b_device_class, camera.b_device_sub_class) = (0x11, 0x12);
    (camera.b_device_protocol, camera.b_configuration_value) = (0x13, 0x14);
    camera.b_num_configurations = 0x15;
    let lens = Interface {
        b_interface_class: 0x21,
        b_interface_sub_class: 0x22,
        b_interface_protocol: 0x23,
    };
    camera.interfaces = vec![Interface::default(), lens];
    assert_eq!(
        (camera.path(), camera.busid(), camera.devid()),
        ("/sys/3-2", "3-2", 0x0003_0002)
    );
    let (mut work, mut reply) = ([0; WORK_LEN], [0; REPLY_LEN]);
    let mut session = open(&[camera]).unwrap();
    let fed = session
        .feed(b"\x01\x11\x80\x05\0\0\0\0", &mut work, &mut reply, 0)
        .unwrap();
    assert_eq!((fed.event, fed.length), (Event::List, 12 + 312 + 2 * 4));
    let mut expected = b"\x01\x11\0\x05\0\0\0\0\0\0\0\x01/sys/3-2".to_vec();
    expected.resize(12 + 256, 0);
    expected.extend(b"3-2");
    expected.resize(12 + 256 + 32, 0);
    expected.extend([0, 0, 0, 3, 0, 0, 0, 2, 4, 5, 6, 7, 8, 9, 0xa, 0xb, 0xc, 0xd]);
    expected.extend([
        0x11, 0x12, 0x13, 0x14, 0x15, 2, 0, 0, 0, 0, 0x21, 0x22, 0x23, 0,
    ]);
    assert_eq!(reply[..fed.length], expected);
}
