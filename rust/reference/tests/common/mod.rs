//! Devices, and short ways to run a text.

#![allow(dead_code)]

use reference::device::{Action, ChainDevice, Device};
use reference::outcome::Outcome;
use reference::property::Property;
use reference::sizes::{OUTCOME_TARGET, RUN_LIST_TARGET};
use reference::{Answer, Sheet};

pub fn chain_device(path: &str) -> ChainDevice {
    ChainDevice {
        path: path.as_bytes().to_vec(),
        subsystem: Vec::new(),
        driver: Vec::new(),
        attributes: Vec::new(),
    }
}

pub fn property(key: &str, value: &str) -> Property {
    Property::new(key.as_bytes(), value.as_bytes())
}

/// A device without parents, properties and attributes.
pub fn device_at(path: &str) -> Device {
    Device {
        action: Action::Add,
        node: None,
        properties: Vec::new(),
        chain: vec![chain_device(path)],
    }
}

/// The device of the listing example: ttyUSB0 with a parent whose serial is RC-0417.
pub fn tty_usb0() -> Device {
    let mut event_device = chain_device("/devices/usb1/1-1/1-1:1.0/ttyUSB0");
    event_device.subsystem = b"tty".to_vec();
    let mut parent = chain_device("/devices/usb1/1-1");
    parent.subsystem = b"usb".to_vec();
    parent.driver = b"usb".to_vec();
    parent.attributes = vec![property("serial", "RC-0417")];
    Device {
        chain: vec![event_device, parent],
        ..device_at("/unused")
    }
}

/// A device with those properties, and no parents.
pub fn device_with(properties: &[(&str, &str)]) -> Device {
    Device {
        properties: properties
            .iter()
            .map(|(key, value)| property(key, value))
            .collect(),
        ..device_at("/devices/sda3")
    }
}

pub fn run_from(text: &str, device: &Device, outcome: &Outcome) -> (Answer, Vec<u8>) {
    run_with(text, device, outcome, &Sheet::default())
}

pub fn run_with(
    text: &str,
    device: &Device,
    outcome: &Outcome,
    sheet: &Sheet,
) -> (Answer, Vec<u8>) {
    let mut target = vec![0xAA; OUTCOME_TARGET];
    let answer = reference::run(
        text.as_bytes(),
        &device.encode(),
        &outcome.encode(),
        &sheet.encode(),
        &mut target,
    );
    let (record, rest) = target.split_at(answer.used as usize);
    assert!(
        rest.iter().all(|&byte| byte == 0),
        "not zero past the record"
    );
    (answer, record.to_vec())
}

/// The visited count and the outcome of an accepted run from the fresh record.
pub fn run(text: &str, device: &Device) -> (u32, Outcome) {
    run_on(text, device, &Outcome::fresh(device))
}

/// The visited count and the outcome of an accepted run.
pub fn run_on(text: &str, device: &Device, outcome: &Outcome) -> (u32, Outcome) {
    let (answer, record) = run_from(text, device, outcome);
    assert_eq!((answer.number, answer.line), (0, 0), "{text}");
    let outcome = Outcome::decode(&record, device.chain.len()).expect("a sound record");
    (answer.visited, outcome)
}

pub fn outcome_of(text: &str, device: &Device) -> Outcome {
    run(text, device).1
}

/// The links after a run from the fresh record.
pub fn links_of(text: &str, device: &Device) -> Vec<String> {
    strings(&outcome_of(text, device).links)
}

/// The tags after a run from the fresh record.
pub fn tags_of(text: &str, device: &Device) -> Vec<String> {
    strings(&outcome_of(text, device).tags)
}

/// The properties after a run from the fresh record, as `key=value`.
pub fn properties_of(text: &str, device: &Device) -> Vec<String> {
    outcome_of(text, device)
        .properties
        .iter()
        .map(|Property { key, value }| format!("{}={}", string(key), string(value)))
        .collect()
}

/// Whether a rule with these match keys matches from the fresh record.
pub fn matches(keys: &str, device: &Device) -> bool {
    tags_of(&format!("{keys}, TAG+=\"matched\""), device) == ["matched"]
}

/// The number and line of a refused run from the fresh record.
pub fn refusal(text: &str, device: &Device) -> (u32, u32) {
    refusal_on(text, device, &Outcome::fresh(device))
}

/// The number and line of a refused run.
pub fn refusal_on(text: &str, device: &Device, outcome: &Outcome) -> (u32, u32) {
    let (answer, record) = run_from(text, device, outcome);
    assert_ne!(answer.number, 0, "{text}");
    assert_eq!(
        (answer.visited, answer.tried, answer.used),
        (0, 0, 0),
        "{text}"
    );
    assert!(record.is_empty());
    (answer.number, answer.line)
}

/// The number and line that a check gives.
pub fn check(text: impl AsRef<[u8]>) -> (u32, u32) {
    let answer = reference::check(text.as_ref());
    assert_eq!((answer.visited, answer.tried, answer.used), (0, 0, 0));
    (answer.number, answer.line)
}

/// The run list after a run from the fresh record and a close, as `type text`.
pub fn runs_of(text: &str, device: &Device) -> Vec<String> {
    let listing = reference::listing(text.as_bytes(), &device.encode(), None, None);
    string(&listing)
        .lines()
        .filter(|line| line.starts_with("program ") || line.starts_with("builtin "))
        .map(str::to_string)
        .collect()
}

/// The number and line that a close gives, and the run list record.
pub fn close(device: &Device, outcome: &Outcome) -> (u32, u32, Vec<u8>) {
    let mut target = vec![0xAA; RUN_LIST_TARGET];
    let answer = reference::close(&device.encode(), &outcome.encode(), &mut target);
    assert_eq!((answer.visited, answer.tried), (0, 0));
    let (record, rest) = target.split_at(answer.used as usize);
    assert!(
        rest.iter().all(|&byte| byte == 0),
        "not zero past the record"
    );
    (answer.number, answer.line, record.to_vec())
}

pub fn string(bytes: &[u8]) -> String {
    String::from_utf8_lossy(bytes).into_owned()
}

pub fn strings(entries: &[Vec<u8>]) -> Vec<String> {
    entries.iter().map(|entry| string(entry)).collect()
}
