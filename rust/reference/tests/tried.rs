//! The devices that a run tries: document 02, Item 9.

mod common;

use common::*;
use reference::device::Device;
use reference::outcome::Outcome;
use reference::sizes::{OUTCOME_TARGET, RUN_LIST_TARGET};

/// ttyUSB0 four hubs deep; the hubs have drivers, the last one has a serial.
fn deep() -> Device {
    let mut device = device_at("/usb1/1-1/1-1.1/1-1.1.1/ttyUSB0");
    for path in [
        "/usb1/1-1/1-1.1/1-1.1.1",
        "/usb1/1-1/1-1.1",
        "/usb1/1-1",
        "/usb1",
    ] {
        let mut hub = chain_device(path);
        hub.driver = b"hub".to_vec();
        device.chain.push(hub);
    }
    device.chain[4].attributes = vec![property("serial", "0000:00")];
    device
}

/// The visited count and the devices tried of an accepted run from the fresh record.
fn counts(text: &str, device: &Device) -> (u32, u32) {
    let (answer, _) = run_from(text, device, &Outcome::fresh(device));
    assert_eq!((answer.number, answer.line), (0, 0), "{text}");
    (answer.visited, answer.tried)
}

fn tried(text: &str) -> u32 {
    counts(text, &deep()).1
}

#[test]
fn the_place_of_the_nearest_device() {
    assert_eq!(tried("KERNELS==\"ttyUSB0\""), 1);
    assert_eq!(tried("KERNELS==\"1-1.1.1\""), 2);
    assert_eq!(tried("DRIVERS==\"hub\""), 2);
    assert_eq!(tried("DRIVERS==\"hub\", KERNELS==\"usb1\""), 5);
    assert_eq!(tried("ATTRS{serial}==\"0*\", TAG+=\"x\""), 5);
    assert_eq!(tried("KERNELS!=\"*\", TAG+=\"x\""), 5, "in vain");
    assert_eq!(tried("KERNELS==\"1-1\", DRIVERS==\"no\""), 5, "in vain");
}

#[test]
fn what_is_absent_counts_as_absent() {
    assert_eq!(tried("ATTRS{serial}!=\"*\""), 1);
    assert_eq!(tried("DRIVERS!=\"*\""), 1);
    assert_eq!(tried("ATTRS{serial}==\"*\""), 5);
    assert_eq!(tried("DRIVERS==\"\""), 5);
}

#[test]
fn other_keys_come_first() {
    assert_eq!(tried("KERNEL==\"ttyUSB0\""), 0, "no parent keys");
    assert_eq!(tried("TAG+=\"a\""), 0, "no keys");
    assert_eq!(tried("KERNELS==\"1-1\", KERNEL==\"no\""), 0);
    assert_eq!(tried("KERNELS==\"no\", ACTION!=\"add\""), 0);
    assert_eq!(tried("ENV{A}==\"x\", KERNELS==\"1-1\", ENV{A}=\"x\""), 0);
    assert_eq!(tried("TAG!=\"x\", SYMLINK!=\"*\", KERNELS==\"1-1\""), 4);
}

#[test]
fn rules_add_up() {
    let device = deep();
    assert_eq!(counts("", &device), (0, 0));
    let text = "KERNELS==\"1-1\", TAG+=\"x\"\n\
                TAG==\"x\", KERNELS==\"no\"\n\
                TAG==\"y\", KERNELS==\"no\"\n\
                KERNELS==\"1-1.1\", GOTO=\"end\"\n\
                KERNELS==\"usb1\"\n\
                LABEL=\"end\", KERNELS==\"ttyUSB0\"\n";
    assert_eq!(counts(text, &device), (5, 4 + 5 + 3 + 1));
    let text = "KERNELS==\"no\"\n".repeat(512);
    assert_eq!(counts(&text, &device), (512, 5 * 512));
    assert_eq!(counts(&text, &device_at("/a")), (512, 512));
}

#[test]
fn nothing_else_tries() {
    let device = deep();
    let record = device.encode();
    let text = "KERNELS==\"1-1\", RUN+=\"%b\"\n";
    let (run, outcome) = run_from(text, &device, &Outcome::fresh(&device));
    assert_eq!((run.number, run.tried), (0, 4));
    let fresh = reference::fresh(&record, &mut vec![0; OUTCOME_TARGET]);
    let close = reference::close(&record, &outcome, &mut vec![0; RUN_LIST_TARGET]);
    assert_eq!((fresh.tried, close.tried), (0, 0));
    assert_eq!(refusal(&format!("{text}MODE=\"8\""), &device), (34, 2));
}

#[test]
fn the_listing_says_it_after_visited() {
    let text = "KERNEL==\"ttyUSB[0-9]*\", ATTRS{serial}==\"RC-0417\", SYMLINK+=\"rope/trip%n\", \
                MODE=\"0660\", GROUP=\"dialout\"";
    let listing = reference::listing(text.as_bytes(), &tty_usb0().encode(), None, None);
    let expected = "visited 1\ntried 2\npriority 0\nmode 0660\ngroup dialout\nlink rope/trip0\n";
    assert_eq!(string(&listing), expected);
    let listing = reference::listing(b"", &tty_usb0().encode(), None, None);
    assert_eq!(string(&listing), "visited 0\ntried 0\npriority 0\n");
}
