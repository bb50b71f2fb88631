//! Table rules: every rule broken by itself, at its limits, and several at once.

use agreement::pair::Pair;
use agreement::reached::Reached;
use agreement::tables::{before_garbage, flat, garbage, table};
use reference::random::Random;
use reference::table::{Device, BUSID_SIZE, MAX_DEVICES, PATH_SIZE};
use rimemaple::{sys, Refusal};

/// A change of the device at the first place, which has the one at the second to look at.
type Change = fn(&mut [Device], usize, usize, &mut Random);

/// Each change and whether a table keeps the rules with it.
const CHANGES: [(&str, bool, Change); 37] = [
    ("none", true, |_, _, _, _| {}),
    ("path starts with 0", false, |t, i, _, _| t[i].path[0] = 0),
    ("path is empty", false, |t, i, _, _| t[i].path.fill(0)),
    ("path has no 0", false, |t, i, _, _| t[i].path.fill(b'p')),
    ("path of 255", true, |t, i, _, _| {
        t[i].path.fill(b'p');
        t[i].path[PATH_SIZE - 1] = 0;
    }),
    ("path of 1", true, |t, i, _, _| t[i].path[1..].fill(0)),
    ("path goes on at its end", false, |t, i, _, _| {
        t[i].path[9] = 0;
        t[i].path[10..].fill(0);
        t[i].path[PATH_SIZE - 1] = 1;
    }),
    ("path goes on after 0", false, |t, i, _, r| {
        t[i].path[9] = 0;
        t[i].path[10 + r.below(PATH_SIZE - 10)] = 0xff;
    }),
    ("path of another", true, |t, i, j, _| t[i].path = t[j].path),
    ("busid starts with 0", false, |t, i, _, _| t[i].busid[0] = 0),
    ("busid is empty", false, |t, i, _, _| t[i].busid.fill(0)),
    ("busid has no 0", false, |t, i, _, _| t[i].busid.fill(b'b')),
    ("busid of 31", true, |t, i, _, _| {
        t[i].busid[1..].fill(b'b');
        t[i].busid[BUSID_SIZE - 1] = 0;
    }),
    ("busid of 1", true, |t, i, _, _| t[i].busid[1..].fill(0)),
    ("busid goes on at its end", false, |t, i, _, _| {
        t[i].busid[3..].fill(0);
        t[i].busid[BUSID_SIZE - 1] = 1;
    }),
    ("busid goes on after 0", false, |t, i, _, r| {
        t[i].busid[3] = 0;
        t[i].busid[4 + r.below(BUSID_SIZE - 4)] = 0xff;
    }),
    ("busid of another", false, |t, i, j, _| {
        t[i].busid = t[j].busid
    }),
    ("busid longer by one", true, |t, i, j, _| {
        t[j].busid[29..].fill(0);
        t[i].busid = t[j].busid;
        let end = t[i].busid.iter().position(|&byte| byte == 0).unwrap();
        t[i].busid[end] = b'0';
    }),
    ("busid differs in its last byte", true, |t, i, j, _| {
        t[j].busid[1..31].fill(b'b');
        t[j].busid[31] = 0;
        t[i].busid = t[j].busid;
        t[i].busid[30] = b'c';
    }),
    ("busnum 0", false, |t, i, _, _| t[i].busnum = 0),
    ("busnum 1", true, |t, i, _, _| t[i].busnum = 1),
    ("busnum 65,535", true, |t, i, _, _| t[i].busnum = 65_535),
    ("busnum 65,536", false, |t, i, _, _| t[i].busnum = 65_536),
    ("busnum 2^32 - 1", false, |t, i, _, _| {
        t[i].busnum = u32::MAX
    }),
    ("devnum 0", false, |t, i, _, _| t[i].devnum = 0),
    ("devnum 1", true, |t, i, _, _| t[i].devnum = 1),
    ("devnum 127", true, |t, i, _, _| t[i].devnum = 127),
    ("devnum 128", false, |t, i, _, _| t[i].devnum = 128),
    ("devnum 2^32 - 1", false, |t, i, _, _| {
        t[i].devnum = u32::MAX
    }),
    ("busnum of another", true, |t, i, j, _| {
        t[i].busnum = t[j].busnum
    }),
    ("devnum of another", true, |t, i, j, _| {
        (t[i].busnum, t[j].busnum) = (7, 8);
        t[i].devnum = t[j].devnum;
    }),
    ("both numbers of another", false, |t, i, j, _| {
        (t[i].busnum, t[i].devnum) = (t[j].busnum, t[j].devnum)
    }),
    ("no interfaces", true, |t, i, _, _| {
        t[i].b_num_interfaces = 0
    }),
    ("16 interfaces", true, |t, i, _, _| {
        t[i].b_num_interfaces = 16
    }),
    ("17 interfaces", false, |t, i, _, _| {
        t[i].b_num_interfaces = 17
    }),
    ("255 interfaces", false, |t, i, _, _| {
        t[i].b_num_interfaces = 255
    }),
    ("free numbers at their ends", true, |t, i, _, r| {
        let end = r.pick(&[0, u32::MAX]);
        t[i].speed = end;
        (t[i].id_vendor, t[i].id_product) = (end as u16, end as u16);
        (t[i].bcd_device, t[i].b_device_class) = (end as u16, end as u8);
        (t[i].b_configuration_value, t[i].b_num_configurations) = (end as u8, end as u8);
    }),
];

/// Compares what open says to a table of these devices, behind which stands what must not count, and tells whether it
/// is good. A session is over that table, and a refused one over none.
fn compare(devices: &[Device], random: &mut Random) -> bool {
    let held = before_garbage(devices, random);
    let (pair, opened) = Pair::open(&held, devices.len());
    let count = if opened.is_ok() { devices.len() } else { 0 };
    assert_eq!(pair.library.as_sys().table, flat(&held, count));
    opened.is_ok()
}

fn named(good: bool, what: &str) -> String {
    format!("{}: {what}", if good { "good" } else { "bad" })
}

#[test]
fn each_rule_by_itself() {
    let mut random = Random::new(1);
    let mut reached = Reached::default();
    for _ in 0..10 {
        for count in 2..=MAX_DEVICES {
            for (what, _, change) in CHANGES {
                for (i, j) in [(0, count - 1), (count - 1, 0), (count - 1, count - 2)] {
                    let mut devices = table(&mut random, count);
                    change(&mut devices, i, j, &mut random);
                    reached.add(named(compare(&devices, &mut random), what));
                }
            }
        }
    }
    let kinds: Vec<String> = CHANGES
        .iter()
        .map(|(what, good, _)| named(*good, what))
        .collect();
    reached.expect_exactly(&kinds);
    assert!(reached.total() >= 15_000);
}

#[test]
fn several_at_once() {
    let mut random = Random::new(2);
    let mut reached = Reached::default();
    for _ in 0..5_000 {
        let count = random.below(MAX_DEVICES + 1);
        let mut devices = table(&mut random, count);
        for _ in 0..random.below(4) {
            if count > 1 {
                let i = random.below(count);
                let j = (i + 1 + random.below(count - 1)) % count;
                let (_, _, change) = CHANGES[random.below(CHANGES.len())];
                change(&mut devices, i, j, &mut random);
            }
        }
        reached.add(named(compare(&devices, &mut random), "mixture"));
    }
    for _ in 0..500 {
        let devices = vec![garbage(&mut random); 1];
        reached.add(named(compare(&devices, &mut random), "garbage"));
    }
    reached.expect_exactly(&["good: mixture", "bad: mixture", "bad: garbage"]);
}

#[test]
fn counts_of_devices() {
    let mut random = Random::new(3);
    let mut reached = Reached::default();
    for _ in 0..20 {
        for count in [0, 1, 2, 15, 16, 17, 18, 200] {
            let devices = table(&mut random, count);
            let good = compare(&devices, &mut random);
            reached.add(named(good, if count <= 16 { "up to 16" } else { "more" }));
        }
        // As the reference has no table that long, the library alone is asked, and answers as to one of 17.
        let devices = table(&mut random, MAX_DEVICES);
        for count in [1 << 8, 1 << 16, 1 << 32, (1 << 32) + 1, usize::MAX] {
            let opened = sys::rimemaple_open(flat(&devices, count));
            assert_eq!(opened.refusal, Refusal::BAD_TABLE.number(), "{count}");
            assert_eq!(opened.session.table, flat(&devices, 0), "{count}");
            reached.add(named(false, "out of reach"));
        }
    }
    reached.expect_exactly(&["good: up to 16", "bad: more", "bad: out of reach"]);
}
