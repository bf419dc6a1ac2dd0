//! What is absent, against what is empty: document 02, Item 4.

mod common;

use common::*;
use reference::device::Device;

/// ttyUSB0 without a serial, whose parent and hub have one.
fn counter() -> Device {
    let mut device = tty_usb0();
    device.chain.push(chain_device("/devices/usb1"));
    device.chain[2].driver = b"hub".to_vec();
    device.chain[2].attributes = vec![property("serial", "0000:00")];
    device
}

fn id(keys: &str, device: &Device) -> Vec<String> {
    links_of(&format!("{keys}, SYMLINK=\"id-%b\""), device)
}

#[test]
fn a_counter_without_serial() {
    assert!(matches("ATTR{serial}!=\"*\"", &counter()));
}

#[test]
fn absent_equals_nothing_and_differs_from_everything() {
    let device = device_at("/a");
    for key in ["ATTR{x}", "ATTRS{x}", "DRIVER", "DRIVERS"] {
        for pattern in ["", "*", "|x", "[!x]*|", "?*", "x"] {
            assert!(!matches(&format!("{key}==\"{pattern}\""), &device), "{key}");
            assert!(matches(&format!("{key}!=\"{pattern}\""), &device), "{key}");
        }
    }
}

#[test]
fn an_attribute_without_bytes_is_present() {
    let mut device = device_at("/a");
    for value in ["", " ", "\t\n "] {
        device.chain[0].attributes = vec![property("x", value)];
        for key in ["ATTR{x}", "ATTRS{x}"] {
            assert!(matches(&format!("{key}==\"\""), &device), "{value:?}");
            assert!(matches(&format!("{key}==\"*\""), &device), "{value:?}");
            assert!(!matches(&format!("{key}!=\"*\""), &device), "{value:?}");
            assert!(matches(&format!("{key}!=\"?*\""), &device), "{value:?}");
        }
    }
}

#[test]
fn other_keys_read_an_empty_value() {
    let device = device_at("/a");
    for key in ["SUBSYSTEM", "SUBSYSTEMS", "ENV{none}"] {
        assert!(matches(&format!("{key}==\"\""), &device), "{key}");
        assert!(matches(&format!("{key}==\"*\""), &device), "{key}");
        assert!(!matches(&format!("{key}!=\"*\""), &device), "{key}");
    }
}

#[test]
fn absent_at_each_device_of_the_chain() {
    let device = counter();
    // The event device has neither serial nor driver, and is the nearest.
    assert_eq!(id("ATTRS{serial}!=\"*\"", &device), ["id-ttyUSB0"]);
    assert_eq!(id("DRIVERS!=\"*\"", &device), ["id-ttyUSB0"]);
    assert_eq!(id("ATTRS{serial}!=\"0*\"", &device), ["id-ttyUSB0"]);
    // It does not stand in for a value that a parent has.
    assert_eq!(id("ATTRS{serial}==\"*\"", &device), ["id-1-1"]);
    assert_eq!(id("DRIVERS==\"*\"", &device), ["id-1-1"]);
    assert_eq!(
        id("ATTRS{serial}!=\"RC*\", DRIVERS==\"*\"", &device),
        ["id-usb1"]
    );
    assert!(!matches("ATTRS{serial}==\"\"", &device));
    assert!(!matches("DRIVERS==\"\"", &device));
    // Where every device has the attribute, `!=` of everything holds nowhere.
    let mut device = device;
    device.chain[0].attributes = vec![property("serial", "")];
    assert!(!matches("ATTRS{serial}!=\"*\"", &device));
    assert_eq!(id("ATTRS{serial}==\"\"", &device), ["id-ttyUSB0"]);
}

#[test]
fn templates_insert_nothing_for_what_is_absent() {
    let device = counter();
    let text = "KERNELS==\"ttyUSB0\", SYMLINK=\"x$attr{serial}$driver$attr{none}y\"";
    assert_eq!(links_of(text, &device), ["xy"]);
    // An attribute of the event device that is there without bytes hides the parent's.
    let mut device = device;
    let text = "KERNELS==\"1-1\", SYMLINK=\"x$attr{serial}\"";
    assert_eq!(links_of(text, &device), ["xRC-0417"]);
    device.chain[0].attributes = vec![property("serial", "")];
    assert_eq!(links_of(text, &device), ["x"]);
}
