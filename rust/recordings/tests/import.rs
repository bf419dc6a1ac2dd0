//! Devices made from recordings.

use recordings::form::{read_device, write_device};
use recordings::import::{import, Imported, Named};
use recordings::recording::{is_recording, read_recording};
use recordings::{Entry, Node};

const COUNTER: &[u8] = include_bytes!("../../../examples/devices/counter.umockdev");
const COUNTER_FORM: &[u8] = include_bytes!("../../../examples/devices/counter.device");

fn imported(recording: &str, event: usize, named: &[&str]) -> Imported {
    let blocks = read_recording(recording.as_bytes()).expect("a recording");
    let names = named.iter().map(|name| name.as_bytes().to_vec());
    let named = Named {
        attributes: names.clone().collect(),
        properties: names.collect(),
    };
    import(&blocks, event, &named).expect("a device")
}

fn notes(imported: &Imported) -> Vec<String> {
    imported.left_out.iter().map(ToString::to_string).collect()
}

fn names(entries: &[Entry]) -> Vec<String> {
    let name = |entry: &Entry| String::from_utf8_lossy(&entry.name).into_owned();
    entries.iter().map(name).collect()
}

#[test]
fn the_recorded_counter() {
    assert!(is_recording(COUNTER));
    assert!(!is_recording(COUNTER_FORM));
    let mut expected = read_device(COUNTER_FORM).expect("its text form");
    let path = expected.chain[0].path.clone();
    let given = [Entry::new("ACTION", "add"), Entry::new("DEVPATH", path)];
    expected.properties.splice(0..0, given);
    let imported = imported(&String::from_utf8_lossy(COUNTER), 0, &[]);
    assert_eq!(write_device(&imported.device), write_device(&expected));
    assert!(imported.left_out.is_empty());
}

#[test]
fn any_block_is_an_event_device() {
    let imported = imported(&String::from_utf8_lossy(COUNTER), 2, &[]);
    let names: Vec<_> = imported
        .device
        .chain
        .iter()
        .map(|part| part.name())
        .collect();
    assert_eq!(names, [&b"1-2:1.0"[..], b"1-2"]);
    assert_eq!(imported.device.node, None);
}

#[test]
fn the_database_of_udev() {
    let database = "P: /devices/usb1/1-2\nM: 1-2\nR: 2\nU: usb\nT: usb_device\nD: c 189:1\n\
        N: bus/usb/001/002\nL: 0\nS: char/189:1\nV: usb\nE: DEVPATH=/devices/usb1/1-2\n\
        E: DEVNAME=/dev/bus/usb/001/002\nE: USEC_INITIALIZED=7\nE: ID_SERIAL=RC\n\
        E: TAGS=:seat:\nX: new\n\nP: /devices/usb1\nU: usb\nV: usb\nB: usb\n";
    let imported = imported(database, 0, &[]);
    let expected = "action add\nnode 189 1\nproperty ACTION=add\n\
        property DEVPATH=/devices/usb1/1-2\nproperty DEVNAME=/dev/bus/usb/001/002\n\
        property ID_SERIAL=RC\ndevice /devices/usb1/1-2\n  subsystem usb\n  driver usb\n\
        device /devices/usb1\n  subsystem usb\n  driver usb\n";
    assert_eq!(write_device(&imported.device), expected);
    let notes = notes(&imported);
    let expected = [
        "/devices/usb1/1-2: left out link char/189:1: left by an earlier run of udev",
        "/devices/usb1/1-2: left out properties USEC_INITIALIZED, TAGS: left by an earlier run of udev",
        "/devices/usb1/1-2: left out line X:: not known here",
    ];
    assert_eq!(notes, expected);
}

#[test]
fn values_are_unescaped() {
    let recording = r#"P: /a
A: text=a\n\\n\t\"\101\7x\q
A: end=\
H: binary=414a0Aff
H: nul=4100
"#;
    let imported = imported(recording, 0, &[]);
    let values: Vec<_> = imported.device.chain[0]
        .attributes
        .iter()
        .map(|attribute| attribute.value.as_slice())
        .collect();
    assert_eq!(values, [&b"a\n\\n\t\"A\x07xq"[..], b"\\", b"AJ\n\xff"]);
    let expected = ["/a: left out attribute nul: binary, with NUL bytes"];
    assert_eq!(notes(&imported), expected);
}

#[test]
fn node_driver_and_action() {
    let recording = "P: /a/b\nE: ACTION=change\nE: DRIVER=plain\nA: dev=8:1\\n\n\
        L: driver=../../bus/usb/drivers/linked\nL: module=../x\nL: device=../y\n";
    let imported = imported(recording, 0, &[]);
    assert_eq!(imported.device.action.name(), "change");
    let node = Node { major: 8, minor: 1 };
    assert_eq!(imported.device.node, Some(node));
    assert_eq!(imported.device.chain[0].driver, b"linked");
    let expected = ["/a/b: left out attribute module: a symbolic link"];
    assert_eq!(notes(&imported), expected);
    let names = names(&imported.device.properties);
    assert_eq!(names, ["ACTION", "DEVPATH", "DRIVER"]);
}

#[test]
fn named_attributes_come_first() {
    let attributes: String = (0..40).map(|n| format!("A: a{n}={n}\n")).collect();
    let recording = format!("P: /a\n{attributes}");
    let imported_in_order = imported(&recording, 0, &[]);
    let kept = names(&imported_in_order.device.chain[0].attributes);
    assert_eq!(kept.len(), 31);
    assert_eq!(kept[30], "a30");
    let expected = [
        "/a: left out attributes a31, a32, a33, a34, a35, a36, a37, a38, a39: \
        a device has at most 31",
    ];
    assert_eq!(notes(&imported_in_order), expected);
    let kept = names(&imported(&recording, 0, &["a39", "a2"]).device.chain[0].attributes);
    assert_eq!(kept.len(), 31);
    assert_eq!(kept[29..], ["a29", "a39"]);
}

#[test]
fn named_properties_come_first() {
    let properties: String = (0..40).map(|n| format!("E: P{n}={n}\n")).collect();
    let recording = format!("P: /a\n{properties}");
    let imported = imported(&recording, 0, &["P39"]);
    let kept = names(&imported.device.properties);
    assert_eq!(kept.len(), 32);
    assert_eq!(kept[..3], ["ACTION", "DEVPATH", "P0"]);
    assert_eq!(kept[30..], ["P28", "P39"]);
    assert!(notes(&imported)[0].ends_with("P38: a record has at most 32"));
}

#[test]
fn what_no_record_holds() {
    let long = "v".repeat(257);
    let name = "n".repeat(65);
    let recording = format!(
        "P: /a\nE: LONG={long}\nE: TWICE=1\nE: TWICE=2\nE: SUBSYSTEM={}\n\
         A: long={long}\nA: {name}=1\nA: =1\nA: x=1\nA: x=1\nL: driver=../{}\n",
        "s".repeat(64),
        "d".repeat(64),
    );
    let imported = imported(&recording, 0, &["long"]);
    assert_eq!(names(&imported.device.chain[0].attributes), ["x"]);
    let expected = [
        format!(
            "/a: left out subsystem {}: it has at most 63 bytes",
            "s".repeat(64)
        ),
        format!(
            "/a: left out driver {}: it has at most 63 bytes",
            "d".repeat(64)
        ),
        String::from("/a: left out property LONG: a value has at most 256 bytes"),
        String::from("/a: left out property TWICE: recorded a second time"),
        String::from("/a: left out attribute long: a value has at most 256 bytes"),
        format!("/a: left out attributes {name}, : a name has 1 to 64 bytes, no NUL"),
        String::from("/a: left out attribute x: recorded a second time"),
    ];
    assert_eq!(notes(&imported), expected);
}

#[test]
fn a_record_is_never_too_long() {
    let value = "v".repeat(256);
    let path = |depth: usize| format!("/device{}", "/device".repeat(depth));
    let mut recording = String::new();
    for depth in (0..18).rev() {
        recording += &format!("P: {}\n", path(depth));
        for n in 0..31 {
            recording += &format!("A: a{n}={value}\n");
        }
    }
    let imported = imported(&recording, 0, &["a30"]);
    let record = imported.device.encode().expect("a record");
    assert!(
        (16_000..=16_384).contains(&record.len()),
        "{}",
        record.len()
    );
    assert_eq!(imported.device.chain.len(), 16);
    for device in &imported.device.chain {
        let has_named = device.attributes.iter().any(|entry| entry.name == b"a30");
        assert!(has_named, "the named attribute is kept at every device");
    }
    let notes = notes(&imported);
    let expected = format!(
        "{}: left out parents {}, {}: a chain has at most 16 devices",
        path(17),
        path(1),
        path(0)
    );
    assert_eq!(notes[0], expected);
    assert!(notes[1].ends_with(": a record has at most 16384 bytes"));
}

#[test]
fn recordings_at_fault() {
    let table = [
        ("", "line 1: no device, which a line `P: PATH` would begin"),
        (
            "\n\n",
            "line 3: no device, which a line `P: PATH` would begin",
        ),
        (
            "E: A=b\nP: /a\n",
            "line 1: `E:` comes behind the `P:` of its device",
        ),
        (
            "P: /a\nhello\n",
            "line 2: a line of a recording begins with a letter and a colon",
        ),
        ("P: /a\nE: A\n", "line 2: `E:` takes name=value"),
        (
            "P: /a\nH: a=414\n",
            "line 2: `H:` takes pairs of hexadecimal digits, not `414`",
        ),
        (
            "P: /a\nH: a=4g\n",
            "line 2: `H:` takes pairs of hexadecimal digits, not `4g`",
        ),
    ];
    for (recording, expected) in table {
        let error = read_recording(recording.as_bytes()).expect_err("a fault");
        assert_eq!(error.to_string(), expected);
    }
    let long = format!("P: /{}\n", "p".repeat(256));
    let table = [
        (
            "P: /a\nE: ACTION=jump\n",
            "the property ACTION is `jump`, no action",
        ),
        (
            "P: /a\nE: MAJOR=5000\nE: MINOR=1\n",
            "`5000` is no number from 0 to 4095",
        ),
        ("P: /a\nA: dev=x\n", "`x` is no MAJOR:MINOR"),
        (&long, "the path is longer than 256 bytes"),
    ];
    for (recording, expected) in table {
        let blocks = read_recording(recording.as_bytes()).expect("a recording");
        let error = import(&blocks, 0, &Named::default()).expect_err("a fault");
        assert_eq!(error, expected);
    }
}
