//! List replies of several devices.

use agreement::pair::Pair;
use agreement::reached::Reached;
use agreement::tables::{before_garbage, table};
use reference::random::Random;
use reference::session::{LEAST_REPLY, LEAST_WORK};
use reference::table::{Device, MAX_DEVICES, MAX_INTERFACES};
use reference::wire::{op_rep_devlist, op_req_devlist};
use rimemaple::Event;

/// Asks for the list of these devices, behind which stands what must not be listed, and tells its length.
fn compare(devices: &[Device], random: &mut Random) -> usize {
    let held = before_garbage(devices, random);
    let (mut pair, opened) = Pair::open(&held, devices.len());
    assert_eq!(opened, Ok(()));
    let mut work = random.bytes(LEAST_WORK);
    let mut reply = random.bytes(LEAST_REPLY);
    let fed = pair.feed(&op_req_devlist(), &mut work, &mut reply, 0);
    let fed = fed.expect("the session waits");
    assert_eq!(fed.event, Event::List);
    assert!(reply[..fed.length] == op_rep_devlist(devices));
    fed.length
}

#[test]
fn every_count_of_devices_and_of_interfaces() {
    let mut random = Random::new(11);
    let mut reached = Reached::default();
    for count in 0..=MAX_DEVICES {
        for interfaces in 0..=MAX_INTERFACES {
            let mut devices = table(&mut random, count);
            for device in &mut devices {
                device.b_num_interfaces = interfaces as u8;
            }
            reached.add(match compare(&devices, &mut random) {
                12 => "the shortest",
                6_028 => "the longest",
                _ => "in between",
            });
        }
    }
    reached.expect_exactly(&["the shortest", "the longest", "in between"]);
}

#[test]
fn devices_with_any_counts_of_interfaces() {
    let mut random = Random::new(12);
    let mut reached = Reached::default();
    for _ in 0..1_000 {
        let count = 2 + random.below(MAX_DEVICES - 1);
        let devices = table(&mut random, count);
        compare(&devices, &mut random);
        let first = devices[0].b_num_interfaces;
        let alike = devices
            .iter()
            .all(|device| device.b_num_interfaces == first);
        reached.add(if alike { "alike" } else { "of several counts" });
    }
    reached.expect_exactly(&["alike", "of several counts"]);
}
