//! The look-up of a device by its busid, as an import asks for it.

use agreement::pair::Pair;
use agreement::reached::Reached;
use agreement::tables::{before_garbage, table};
use reference::random::Random;
use reference::session::{LEAST_REPLY, LEAST_WORK};
use reference::table::{self, Device, BUSID_SIZE, MAX_DEVICES};
use reference::wire::{op_rep_import, op_req_import};
use rimemaple::Event;

type Busid = [u8; BUSID_SIZE];
type Change = fn(&mut Busid);

/// A busid that is like another one up to its zero or its end.
const LIKE: [(&str, Change); 6] = [
    ("as it is", |_| {}),
    ("differs behind its zero", |busid| busid[31] = 1),
    ("shorter", |busid| {
        let end = busid.iter().rposition(|&byte| byte != 0).unwrap();
        busid[end] = 0;
    }),
    ("longer", |busid| {
        let end = busid.iter().position(|&byte| byte == 0).unwrap();
        busid[end] = 1;
    }),
    ("differs in its first byte", |busid| busid[0] = 0xff),
    ("empty", |busid| busid.fill(0)),
];

/// Imports a busid from the first `count` devices, and tells the place of the device that is served.
fn import(held: &[Device], count: usize, busid: &Busid) -> Option<usize> {
    let (mut pair, opened) = Pair::open(held, count);
    assert_eq!(opened, Ok(()));
    let (mut work, mut reply) = ([0; LEAST_WORK], [0; LEAST_REPLY]);
    let fed = pair.feed(&op_req_import(busid), &mut work, &mut reply, 0);
    let fed = fed.expect("the session waits");
    let place = table::find(&held[..count], busid);
    let device = place.map(|place| &held[place]);
    let status = i32::from(device.is_none());
    assert_eq!(fed.event, Event::Import { status });
    assert!(reply[..fed.length] == op_rep_import(device));
    let devid = device.map(|device| u64::from(device.devid()));
    assert_eq!(pair.library.devid(), devid, "{busid:?} in {held:?}");
    place
}

#[test]
fn the_first_device_whose_bytes_all_match() {
    let mut random = Random::new(21);
    let mut reached = Reached::default();
    for _ in 0..50 {
        for count in 1..=MAX_DEVICES {
            let devices = table(&mut random, count);
            let held = before_garbage(&devices, &mut random);
            let any = random.below(count);
            let wanted = random.pick(&[0, count - 1, any]);
            for (what, change) in LIKE {
                let mut busid = held[wanted].busid;
                change(&mut busid);
                reached.add(match import(&held, count, &busid) {
                    None => format!("nothing: {what}"),
                    Some(0) => "the first place".to_string(),
                    Some(place) if place + 1 == count => "the last place".to_string(),
                    Some(_) => "another place".to_string(),
                });
            }
            let behind = import(&held, count - 1, &held[count - 1].busid);
            assert_eq!(behind, None);
            reached.add("nothing: behind the count");
        }
    }
    reached.expect_exactly(&[
        "the first place",
        "the last place",
        "another place",
        "nothing: differs behind its zero",
        "nothing: shorter",
        "nothing: longer",
        "nothing: differs in its first byte",
        "nothing: empty",
        "nothing: behind the count",
    ]);
}
