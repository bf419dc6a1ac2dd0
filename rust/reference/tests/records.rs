//! The packed records: their bytes, and every kind of damage.

mod common;

use common::*;
use reference::device::{Action, ChainDevice, Device, Node};
use reference::outcome::{Closed, Outcome, Run, RunType, Watch};
use reference::property::Property;
use reference::run_list::RunList;
use reference::sheet::EMPTY;
use reference::sizes::{OUTCOME_TARGET, RUN_LIST_TARGET};
use reference::template::Template;

/// A device record, written by hand from document 01.
const DEVICE: &[u8] = &[
    0x10, 0x50, 0xBC, 0x00, 0x00, 0x30, 0x40, // change, node 188 3, one property
    0x02, 0x01, b'A', b'b', // property A=b
    0x02, 0x06, 0x08, 0x40, // lengths 4, 3 and 1, one attribute
    b'/', b'a', b'/', b'b', b't', b't', b'y', b'd', // the three texts
    0x02, 0x01, b's', b'v', // attribute s=v
];

/// An outcome record for it, written by hand.
const OUTCOME: &[u8] = &[
    0x2A, 0x01, 0x0A, 0x36, 0x1F, 0xFF, 0xFF, 0xFF, 0xE1, 0x04, 0x21, 0x00,
    0xA0, // see the test
    b'x', b'y', // output
    b'o', b'g', b'h', // owner and group
    0x01, b'a', // link
    0x02, 0x01, b'K', b'V', // property
    0x01, b't', // tag
    0x84, 0x04, b'%', b'k', // builtin at place 1
];

fn device_of_record() -> Device {
    Device {
        action: Action::Change,
        node: Some(Node {
            major: 188,
            minor: 3,
        }),
        properties: vec![property("A", "b")],
        chain: vec![ChainDevice {
            path: b"/a/b".to_vec(),
            subsystem: b"tty".to_vec(),
            driver: b"d".to_vec(),
            attributes: vec![property("s", "v")],
        }],
    }
}

fn outcome_of_record() -> Outcome {
    Outcome {
        // Edition 0010, then 101000: links and runs closed.
        closed: Closed {
            links: true,
            runs: true,
            ..Closed::default()
        },
        owner: Some(b"o".to_vec()),
        group: Some(b"gh".to_vec()),
        mode: Some(0o660),
        priority: -1,
        links: vec![b"a".to_vec()],
        properties: vec![property("K", "V")],
        tags: vec![b"t".to_vec()],
        runs: vec![run_entry("%k", 1)],
        output: b"xy".to_vec(),
        watch: Watch::Nowatch,
    }
}

fn run_entry(template: &str, matched: usize) -> Run {
    Run {
        run_type: RunType::Builtin,
        matched,
        template: Template::read(template.as_bytes()).expect("a well formed template"),
    }
}

fn fresh_number(device: &[u8]) -> u32 {
    let mut target = vec![0xAA; OUTCOME_TARGET];
    let answer = reference::fresh(device, &mut target);
    if answer.number != 0 {
        assert_eq!((answer.line, answer.visited, answer.used), (0, 0, 0));
        assert!(target.iter().all(|&byte| byte == 0));
    }
    answer.number
}

/// The number for a device record, the same from all operations that read it.
fn device_number(device: &[u8]) -> u32 {
    let number = fresh_number(device);
    let mut target = vec![0xAA; OUTCOME_TARGET];
    let run = reference::run(
        b"",
        device,
        &Outcome::default().encode(),
        EMPTY,
        &mut target,
    );
    let close = reference::close(device, &Outcome::default().encode(), &mut target);
    assert_eq!((run.number, close.number), (number, number));
    assert_eq!((run.line, close.line), (0, 0));
    number
}

/// The number for an outcome record of the device above, the same from run and close.
fn outcome_number(outcome: &[u8]) -> u32 {
    let mut target = vec![0xAA; OUTCOME_TARGET];
    let run = reference::run(b"", DEVICE, outcome, EMPTY, &mut target);
    if run.number != 0 {
        assert!(target.iter().all(|&byte| byte == 0));
    }
    let close = reference::close(DEVICE, outcome, &mut target);
    if close.number != 0 {
        assert!(target.iter().all(|&byte| byte == 0));
    }
    assert_eq!(run.number, close.number);
    assert_eq!((run.line, close.line), (0, 0));
    run.number
}

fn changed(record: &[u8], change: impl FnOnce(&mut Vec<u8>)) -> Vec<u8> {
    let mut record = record.to_vec();
    change(&mut record);
    record
}

fn with_bit_flipped(record: &[u8], bit: usize) -> Vec<u8> {
    changed(record, |record| record[bit / 8] ^= 0x80 >> (bit % 8))
}

#[test]
fn device_record_by_hand() {
    assert_eq!(Device::decode(DEVICE), Some(device_of_record()));
    assert_eq!(device_of_record().encode(), DEVICE);
}

#[test]
fn outcome_record_by_hand() {
    // 0010 101000 000001 000010 1 000110110000 (priority: 32 ones) 00001 000001 00001 00001, then
    // 0000000010 10 0000: 2 bytes of output, nowatch.
    let bits = ["0010", "101000", "000001", "000010", "1", "000110110000"].concat()
        + &"1".repeat(32)
        + &["00001", "000001", "00001", "00001"].concat()
        + &["0000000010", "10", "0000"].concat();
    let header: Vec<u8> = bits
        .as_bytes()
        .chunks(8)
        .map(|byte| byte.iter().fold(0, |byte, bit| 2 * byte + (bit - b'0')))
        .collect();
    assert_eq!(header, OUTCOME[..13]);
    assert_eq!(Outcome::decode(OUTCOME, 1), Some(outcome_of_record()));
    assert_eq!(outcome_of_record().encode(), OUTCOME);
}

#[test]
fn fresh_record() {
    let mut target = vec![0xAA; OUTCOME_TARGET + 5];
    let answer = reference::fresh(DEVICE, &mut target);
    let record = [
        0x20, 0, 0, 0, 0, 0, 0, 0, 0, 0x04, 0, 0, 0, 0x02, 0x01, b'A', b'b',
    ];
    assert_eq!((answer.number, answer.line, answer.visited), (0, 0, 0));
    assert_eq!(answer.used, 17);
    assert_eq!(target[..17], record);
    assert!(target[17..].iter().all(|&byte| byte == 0));
}

#[test]
fn mode_and_lowest_priority_in_the_record() {
    let text = "MODE=\"0660\", OPTIONS=\"link_priority=-2147483648\"";
    let device = device_at("/a");
    let (_, record) = run_from(text, &device, &Outcome::fresh(&device));
    assert_eq!(record, [0x20, 0, 0x02, 0x36, 0x10, 0, 0, 0, 0, 0, 0, 0, 0]);
}

#[test]
fn run_list_record() {
    let device = device_of_record();
    let outcome = Outcome {
        runs: vec![
            run_entry("x", 0),
            Run {
                run_type: RunType::Program,
                ..run_entry("$attr{none}", 0)
            },
        ],
        ..Outcome::default()
    };
    let (number, _, record) = close(&device, &outcome);
    assert_eq!(number, 0);
    assert_eq!(record, [0x10, 0x80, 0x20, b'x', 0x00, 0x00]);
    let run_list = RunList::decode(&record).expect("a run list");
    assert_eq!(run_list.entries.len(), 2);
    assert_eq!(run_list.encode(), record);
    assert_eq!(RunList::decode(&record[..5]), None);
    let (_, _, record) = close(&device, &Outcome::fresh(&device));
    assert_eq!(record, [0x00]);
}

#[test]
fn fullest_records() {
    let long = |index: usize, length: usize| format!("{index:0length$}");
    let outcome = Outcome {
        closed: Closed::default(),
        owner: Some(vec![b'o'; 32]),
        group: Some(vec![b'g'; 32]),
        mode: Some(0o7775),
        priority: i32::MIN,
        links: (0..16).map(|i| long(i, 128).into_bytes()).collect(),
        properties: (0..32)
            .map(|i| property(&long(i, 64), &"v".repeat(256)))
            .collect(),
        tags: (0..16).map(|i| long(i, 64).into_bytes()).collect(),
        runs: (0..16).map(|i| run_entry(&long(i, 256), 1)).collect(),
        output: vec![b'p'; 512],
        watch: Watch::Watch,
    };
    assert_eq!(outcome.encode().len(), OUTCOME_TARGET);
    assert_eq!(outcome_number(&outcome.encode()), 0);

    let outcome = Outcome {
        properties: vec![property("A", &"v".repeat(256))],
        runs: vec![run_entry("$env{A}$env{A}", 0); 16],
        ..Outcome::default()
    };
    let (number, _, record) = close(&device_of_record(), &outcome);
    assert_eq!((number, record.len()), (0, RUN_LIST_TARGET));
}

#[test]
fn device_truncated_at_every_byte() {
    for length in 0..DEVICE.len() {
        assert_eq!(device_number(&DEVICE[..length]), 3, "{length} bytes");
    }
    assert_eq!(device_number(DEVICE), 0);
    assert_eq!(device_number(&[DEVICE, &[0]].concat()), 3);
    assert_eq!(device_number(&[DEVICE, b"x"].concat()), 3);
}

#[test]
fn outcome_truncated_at_every_byte() {
    for length in 0..OUTCOME.len() {
        assert_eq!(outcome_number(&OUTCOME[..length]), 4, "{length} bytes");
    }
    assert_eq!(outcome_number(OUTCOME), 0);
    assert_eq!(outcome_number(&[OUTCOME, &[0]].concat()), 4);
    assert_eq!(outcome_number(&[OUTCOME, b"x"].concat()), 4);
}

#[test]
fn each_bit_of_the_device_header_flipped() {
    // Action, major and minor may have any value while there is a node.
    let may_differ = |bit| matches!(bit, 8..=10 | 12..=43);
    for bit in 0..56 {
        let expected = if may_differ(bit) { 0 } else { 3 };
        let record = with_bit_flipped(DEVICE, bit);
        assert_eq!(device_number(&record), expected, "bit {bit}");
    }
}

#[test]
fn each_bit_of_a_device_without_node_flipped() {
    let device = Device {
        node: None,
        ..device_of_record()
    };
    let record = device.encode();
    // Action may differ; with the node bit set, numbers of zero are sound.
    let may_differ = |bit| matches!(bit, 8..=11);
    for bit in 0..56 {
        let expected = if may_differ(bit) { 0 } else { 3 };
        let record = with_bit_flipped(&record, bit);
        assert_eq!(device_number(&record), expected, "bit {bit}");
    }
}

#[test]
fn each_bit_of_the_lengths_of_a_device_flipped() {
    // Only moving bytes between subsystem and driver could stay sound, and takes two flips.
    for bit in 11 * 8..15 * 8 {
        let record = with_bit_flipped(DEVICE, bit);
        assert_eq!(device_number(&record), 3, "bit {bit}");
    }
    for bit in 7 * 8..9 * 8 {
        let record = with_bit_flipped(DEVICE, bit);
        assert_eq!(device_number(&record), 3, "bit {bit}");
    }
}

#[test]
fn each_bit_of_the_outcome_header_flipped() {
    // Closed flags and priority may have any value, and so may a mode that is set, but for the
    // bit by which others write.
    // The watch bits, 10, may become 00 but not 11.
    let may_differ = |bit| matches!(bit, 4..=9 | 23..=32 | 34..=66 | 98);
    for bit in 0..104 {
        let expected = if may_differ(bit) { 0 } else { 4 };
        let record = with_bit_flipped(OUTCOME, bit);
        assert_eq!(outcome_number(&record), expected, "bit {bit}");
    }
}

#[test]
fn each_bit_of_an_empty_outcome_flipped() {
    let record = Outcome::default().encode();
    assert_eq!(record, [0x20, 0, 0, 0, 0, 0, 0, 0, 0, 0, 0, 0, 0]);
    // Closed flags, the bit that sets the mode 0, the priority, and the watch bits.
    let may_differ = |bit| matches!(bit, 4..=9 | 22 | 35..=66 | 98 | 99);
    for bit in 0..104 {
        let expected = if may_differ(bit) { 0 } else { 4 };
        let record = with_bit_flipped(&record, bit);
        assert_eq!(outcome_number(&record), expected, "bit {bit}");
    }
}

#[test]
fn mode_bits_without_the_set_bit() {
    let record = with_bit_flipped(OUTCOME, 22);
    assert_eq!(outcome_number(&record), 4);
}

#[test]
fn unused_bits_of_lengths() {
    for bit in 26..32 {
        let record = with_bit_flipped(DEVICE, 8 * 11 + bit);
        assert_eq!(device_number(&record), 3);
    }
    let unused_bit_of_run = 8 * (OUTCOME.len() - 2) - 1;
    let record = with_bit_flipped(OUTCOME, unused_bit_of_run);
    assert_eq!(outcome_number(&record), 4);
}

fn device_number_after(change: impl FnOnce(&mut Device)) -> u32 {
    let mut device = tty_usb0();
    change(&mut device);
    device_number(&device.encode())
}

#[test]
fn paths() {
    let number = |path: &[u8]| {
        device_number_after(|device| {
            device.chain.truncate(1);
            device.chain[0].path = path.to_vec();
        })
    };
    assert_eq!(number(b"/a"), 0);
    assert_eq!(number(b"/a/../.b"), 0);
    assert_eq!(number(b""), 3);
    assert_eq!(number(b"/"), 3);
    assert_eq!(number(b"a"), 3);
    assert_eq!(number(b"a/b"), 3);
    assert_eq!(number(b"/a/"), 3);
    assert_eq!(number(b"//a"), 3);
    assert_eq!(number(b"/a//b"), 3);
    assert_eq!(number(b"/a\0"), 3);
    assert_eq!(number(format!("/{:0255}", 0).as_bytes()), 0);
    assert_eq!(number(format!("/{:0256}", 0).as_bytes()), 3);
}

#[test]
fn parents() {
    let number = |paths: &[&str]| {
        device_number_after(|device| {
            device.chain = paths.iter().map(|path| chain_device(path)).collect();
        })
    };
    assert_eq!(number(&["/a/b/c", "/a/b"]), 0);
    assert_eq!(number(&["/a/b/c", "/a"]), 0);
    assert_eq!(number(&["/a/b/c", "/a/b", "/a"]), 0);
    assert_eq!(number(&["/a/b/c", ""]), 3);
    assert_eq!(number(&["/a/b/c", "/"]), 3);
    assert_eq!(number(&["/a/b/c", "/a/"]), 3);
    assert_eq!(number(&["/a/b/c", "/a/b/c"]), 3);
    assert_eq!(number(&["/a/b/c", "/x"]), 3);
    assert_eq!(number(&["/abc/d", "/ab"]), 3);
    assert_eq!(number(&["/a/b/c", "/a", "/a/b"]), 3);
    assert_eq!(number(&["/a/b/c", "/a", "/a"]), 3);
    let chain: Vec<String> = (1..=16).rev().map(|depth| "/d".repeat(depth)).collect();
    let chain: Vec<&str> = chain.iter().map(String::as_str).collect();
    assert_eq!(number(&chain), 0);
}

#[test]
fn keys_of_a_device() {
    let number = |properties: &[Property]| {
        device_number_after(|device| {
            device.properties = properties.to_vec();
        })
    };
    let of_attributes = |attributes: &[Property]| {
        device_number_after(|device| {
            device.chain[1].attributes = attributes.to_vec();
        })
    };
    let both = |entries: &[Property]| {
        let number = number(entries);
        assert_eq!(of_attributes(entries), number);
        number
    };
    let long = |key, value| property(&"k".repeat(key), &"v".repeat(value));
    assert_eq!(both(&[property("A", "1"), property("B", "1")]), 0);
    assert_eq!(both(&[property("A", "1"), property("A", "1")]), 3);
    assert_eq!(
        both(&[property("A", ""), property("B", ""), property("A", "2")]),
        3
    );
    assert_eq!(both(&[long(1, 0)]), 0);
    assert_eq!(both(&[long(64, 256)]), 0);
    assert_eq!(both(&[long(0, 1)]), 3);
    assert_eq!(both(&[long(65, 1)]), 3);
    assert_eq!(both(&[long(1, 257)]), 3);
    assert_eq!(both(&[Property::new(b"a\0", b"")]), 3);
    assert_eq!(both(&[Property::new(b"a", b"\0")]), 3);
    let many = |count: usize| -> Vec<Property> {
        (0..count).map(|i| property(&i.to_string(), "")).collect()
    };
    assert_eq!(of_attributes(&many(31)), 0);
    assert_eq!(number(&many(32)), 0);
    assert_eq!(number(&many(33)), 3);
    let shared = device_number_after(|device| {
        device.properties = vec![property("serial", "")];
        device.chain[0].attributes = vec![property("serial", "")];
    });
    assert_eq!(shared, 0, "keys are distinct only within their own list");
}

#[test]
fn other_texts_of_a_device() {
    assert_eq!(
        device_number_after(|device| device.chain[0].driver.clear()),
        0
    );
    assert_eq!(
        device_number_after(|device| device.chain[0].subsystem.clear()),
        0
    );
    assert_eq!(
        device_number_after(|device| device.chain[0].driver = vec![b'd'; 63]),
        0
    );
    assert_eq!(
        device_number_after(|device| device.chain[0].driver = vec![0]),
        3
    );
    assert_eq!(
        device_number_after(|device| device.chain[1].subsystem = vec![b'a', 0]),
        3
    );
}

/// A device that is sound but for its length, if that is too large.
fn device_of_length(length: usize) -> Device {
    let mut device = tty_usb0();
    device.chain.push(chain_device("/devices/usb1"));
    for index in 0.. {
        let missing = length - device.encode().len();
        let value = match missing {
            0 => break,
            1..=200 => missing - 6,
            _ => 180,
        };
        let attribute = property(&format!("{index:04}"), &"v".repeat(value));
        device.chain[index % 3].attributes.push(attribute);
    }
    device
}

#[test]
fn device_record_sizes() {
    assert_eq!(device_number(&device_of_length(16_384).encode()), 0);
    assert_eq!(device_number(&device_of_length(16_385).encode()), 3);
}

fn outcome_number_after(change: impl FnOnce(&mut Outcome)) -> u32 {
    let mut outcome = outcome_of_record();
    change(&mut outcome);
    outcome_number(&outcome.encode())
}

#[test]
fn owner_and_group_of_an_outcome() {
    let number = |name: &[u8]| {
        let number = outcome_number_after(|outcome| outcome.owner = Some(name.to_vec()));
        let of_group = outcome_number_after(|outcome| outcome.group = Some(name.to_vec()));
        assert_eq!(number, of_group);
        number
    };
    assert_eq!(number(b"azAZ09_-."), 0);
    assert_eq!(number(&[b'a'; 32]), 0);
    assert_eq!(number(&[b'a'; 33]), 4);
    assert_eq!(number(b"a b"), 4);
    assert_eq!(number(b"a:"), 4);
    assert_eq!(number(b"\xe4"), 4);
    assert_eq!(number(b"a\0"), 4);
    assert_eq!(outcome_number_after(|outcome| outcome.owner = None), 0);
}

#[test]
fn links_of_an_outcome() {
    let number = |links: &[&[u8]]| {
        outcome_number_after(|outcome| {
            outcome.links = links.iter().map(|link| link.to_vec()).collect();
        })
    };
    assert_eq!(number(&[b"a", b"b"]), 0);
    assert_eq!(number(&[b"a b\xff\n"]), 0);
    assert_eq!(number(&[b"...", b".a", b"a..", b"a/b"]), 0);
    assert_eq!(number(&[&[b'a'; 128]]), 0);
    assert_eq!(number(&[&[b'a'; 129]]), 4);
    for faulty in [
        &b""[..],
        b"/",
        b"/a",
        b"a/",
        b"a//b",
        b".",
        b"..",
        b"a/.",
        b"../a",
        b"a/../b",
        b"a\0",
    ] {
        assert_eq!(number(&[faulty]), 4, "{faulty:?}");
    }
    assert_eq!(number(&[b"a", b"b", b"a"]), 4);
    let many = |count: usize| {
        outcome_number_after(|outcome| {
            outcome.links = (0..count).map(|i| i.to_string().into_bytes()).collect();
        })
    };
    assert_eq!(many(16), 0);
    assert_eq!(many(17), 4);
}

#[test]
fn tags_of_an_outcome() {
    let number = |tags: &[&[u8]]| {
        outcome_number_after(|outcome| {
            outcome.tags = tags.iter().map(|tag| tag.to_vec()).collect();
        })
    };
    assert_eq!(number(&[b"a", b"/", b"..", b"a b"]), 0);
    assert_eq!(number(&[&[b'a'; 64]]), 0);
    assert_eq!(number(&[&[b'a'; 65]]), 4);
    assert_eq!(number(&[b""]), 4);
    assert_eq!(number(&[b"a\0"]), 4);
    assert_eq!(number(&[b"a", b"a"]), 4);
    let many = |count: usize| {
        outcome_number_after(|outcome| {
            outcome.tags = (0..count).map(|i| i.to_string().into_bytes()).collect();
        })
    };
    assert_eq!(many(16), 0);
    assert_eq!(many(17), 4);
}

#[test]
fn properties_of_an_outcome() {
    let number = |properties: &[Property]| {
        outcome_number_after(|outcome| {
            outcome.properties = properties.to_vec();
        })
    };
    assert_eq!(number(&[property("K", ""), property("k", "")]), 0);
    assert_eq!(number(&[property("K", "1"), property("K", "2")]), 4);
    assert_eq!(number(&[property("", "1")]), 4);
    assert_eq!(number(&[property(&"k".repeat(64), &"v".repeat(256))]), 0);
    assert_eq!(number(&[property(&"k".repeat(65), "")]), 4);
    assert_eq!(number(&[property("K", &"v".repeat(257))]), 4);
    assert_eq!(number(&[Property::new(b"K", b"\0")]), 4);
    let many = |count: usize| -> Vec<Property> {
        (0..count).map(|i| property(&i.to_string(), "")).collect()
    };
    assert_eq!(number(&many(32)), 0);
    assert_eq!(number(&many(33)), 4);
}

#[test]
fn runs_of_an_outcome() {
    let number = |runs: &[Run]| outcome_number_after(|outcome| outcome.runs = runs.to_vec());
    assert_eq!(number(&[run_entry("x", 0), run_entry("x", 0)]), 0);
    assert_eq!(number(&[run_entry("x", 1)]), 0);
    assert_eq!(number(&[run_entry("x", 2)]), 4, "the chain has one device");
    assert_eq!(number(&[run_entry("", 0)]), 4);
    assert_eq!(number(&[run_entry(&"x".repeat(256), 0)]), 0);
    assert_eq!(number(&[run_entry(&"x".repeat(257), 0)]), 4);
    assert_eq!(number(&vec![run_entry("x", 0); 16]), 0);
    assert_eq!(number(&vec![run_entry("x", 0); 17]), 4);
    let faulty_template = changed(OUTCOME, |record| *record.last_mut().unwrap() = b'x');
    assert_eq!(outcome_number(&faulty_template), 4);
    let nul = changed(OUTCOME, |record| {
        let first_of_template = record.len() - 2;
        record[first_of_template] = 0;
    });
    assert_eq!(outcome_number(&nul), 4);
}

#[test]
fn a_place_is_judged_by_the_chain_of_the_device_at_hand() {
    let outcome = Outcome {
        runs: vec![run_entry("%b", 2)],
        ..Outcome::default()
    };
    let (number, _, record) = close(&tty_usb0(), &outcome);
    assert_eq!((number, &record[3..]), (0, &b"1-1"[..]));
    assert_eq!(close(&device_at("/a"), &outcome).0, 4);
}
