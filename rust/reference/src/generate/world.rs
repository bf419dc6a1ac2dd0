//! Generated devices and outcomes.

use super::pairs::template;
use super::rng::Rng;
use super::sheets::{commands, sheet, Command};
use super::vocabulary::{
    ATTRIBUTE_NAMES, COMPONENTS, DRIVERS, LINKS, NAMES, OWNERS, PROPERTY_KEYS, SUBSYSTEMS, TAGS,
    VALUES,
};
use crate::device::{Action, ChainDevice, Device, Node};
use crate::outcome::{Closed, Outcome, Run, RunType, Watch};
use crate::property::{value_of, Property};
use crate::sheet::Sheet;
use crate::sizes;
use crate::template::Template;

/// A device with an outcome for it, and what programs said.
pub struct World {
    pub device: Device,
    pub outcome: Outcome,
    pub commands: Vec<Command>,
    pub sheet: Sheet,
}

pub fn world(rng: &mut Rng) -> World {
    let device = device(rng);
    let outcome = outcome(rng, &device);
    let commands = commands(rng, &device, &outcome);
    let sheet = sheet(rng, &commands);
    World {
        device,
        outcome,
        commands,
        sheet,
    }
}

/// A device with an outcome that mostly claims links.
pub fn claimant(rng: &mut Rng) -> (Device, Outcome) {
    let device = device(rng);
    let limit = if rng.percent(90) { 5 } else { 17 };
    let outcome = used_outcome(rng, &device, limit);
    (device, outcome)
}

pub fn device(rng: &mut Rng) -> Device {
    Device {
        action: rng.pick(&Action::ALL),
        node: rng.percent(60).then(|| node(rng)),
        properties: properties(rng, sizes::PROPERTIES),
        chain: chain(rng),
    }
}

fn node(rng: &mut Rng) -> Node {
    Node {
        major: rng.pick(&[0, 8, 188, 4_095]),
        minor: rng.pick(&[0, 3, 1_000, 1_048_575]),
    }
}

/// Mostly a few, now and then as many as there may be.
fn small_count(rng: &mut Rng, limit: usize) -> usize {
    match rng.below(100) {
        0..=94 => rng.below(5),
        95..=97 => rng.between(0, limit),
        _ => limit,
    }
}

fn properties(rng: &mut Rng, limit: usize) -> Vec<Property> {
    entries(rng, PROPERTY_KEYS, limit)
}

/// Properties or attributes with the given keys first.
fn entries(rng: &mut Rng, keys: &[&[u8]], limit: usize) -> Vec<Property> {
    let count = small_count(rng, limit);
    let mut entries: Vec<Property> = Vec::new();
    while entries.len() < count {
        let key = if entries.len() < keys.len() {
            rng.pick(keys).to_vec()
        } else {
            format!("K{}", entries.len()).into_bytes()
        };
        if value_of(&entries, &key).is_none() {
            entries.push(Property {
                key,
                value: value(rng),
            });
        }
    }
    entries
}

/// The value of an attribute or property.
pub fn value(rng: &mut Rng) -> Vec<u8> {
    match rng.below(100) {
        0..=89 => rng.pick(VALUES).to_vec(),
        90..=97 => (0..rng.below(6)).map(|_| byte_but_nul(rng)).collect(),
        _ => vec![b'v'; rng.pick(&[100, 128, 255, 256])],
    }
}

fn byte_but_nul(rng: &mut Rng) -> u8 {
    rng.byte().max(1)
}

fn chain(rng: &mut Rng) -> Vec<ChainDevice> {
    let length = match rng.below(100) {
        0..=19 => 1,
        20..=84 => rng.between(2, 4),
        85..=95 => rng.between(5, 12),
        _ => sizes::CHAIN,
    };
    paths(rng, length)
        .into_iter()
        .map(|path| ChainDevice {
            path,
            subsystem: short_text(rng, SUBSYSTEMS, sizes::SUBSYSTEM),
            driver: short_text(rng, DRIVERS, sizes::DRIVER),
            attributes: entries(rng, ATTRIBUTE_NAMES, if length < 5 { 31 } else { 4 }),
        })
        .collect()
}

fn short_text(rng: &mut Rng, words: &[&[u8]], limit: usize) -> Vec<u8> {
    if rng.percent(1) {
        vec![b's'; limit]
    } else {
        rng.pick(words).to_vec()
    }
}

/// The paths of a chain, the longest first.
fn paths(rng: &mut Rng, length: usize) -> Vec<Vec<u8>> {
    let mut path = Vec::new();
    let mut paths = Vec::new();
    for index in 0..length {
        let is_event_device = index + 1 == length;
        if path.len() < 100 && rng.percent(30) {
            add_component(&mut path, rng.pick(COMPONENTS));
        }
        let name = if path.len() > 150 {
            &b"n4"[..]
        } else if is_event_device || rng.percent(30) {
            rng.pick(NAMES)
        } else {
            rng.pick(COMPONENTS)
        };
        add_component(&mut path, name);
        if is_event_device && rng.percent(2) {
            path.resize(rng.pick(&[255, sizes::PATH]), b'7');
        }
        paths.push(path.clone());
    }
    paths.reverse();
    paths
}

fn add_component(path: &mut Vec<u8>, component: &[u8]) {
    path.push(b'/');
    path.extend_from_slice(component);
}

pub fn outcome(rng: &mut Rng, device: &Device) -> Outcome {
    match rng.below(10) {
        0..=4 => Outcome::fresh(device),
        5..=8 => used_outcome(rng, device, 4),
        _ => used_outcome(rng, device, 17),
    }
}

/// An outcome as some rules might have left it, its lists with fewer entries than `limit`.
fn used_outcome(rng: &mut Rng, device: &Device, limit: usize) -> Outcome {
    let mut outcome = Outcome {
        closed: closed(rng),
        owner: rng.percent(30).then(|| rng.pick(OWNERS).to_vec()),
        group: rng.percent(30).then(|| rng.pick(OWNERS).to_vec()),
        mode: rng.percent(30).then(|| rng.pick(&[0, 0o660, 0o7775])),
        priority: rng.pick(&[0, 0, 5, -1, i32::MIN, i32::MAX]),
        links: distinct(rng, LINKS, limit),
        properties: if rng.percent(70) {
            device.properties.clone()
        } else {
            properties(rng, sizes::PROPERTIES)
        },
        tags: distinct(rng, TAGS, limit),
        runs: Vec::new(),
        output: output(rng),
        watch: rng.pick(&[Watch::Unset, Watch::Unset, Watch::Watch, Watch::Nowatch]),
    };
    for _ in 0..rng.below(limit) {
        let run = run(rng, device, &outcome);
        outcome.runs.push(run);
    }
    outcome
}

/// What a program may have said last, if one was asked.
fn output(rng: &mut Rng) -> Vec<u8> {
    match rng.below(100) {
        0..=59 => Vec::new(),
        60..=97 => value(rng),
        _ => vec![b'o'; rng.pick(&[257, sizes::OUTPUT - 1, sizes::OUTPUT])],
    }
}

fn closed(rng: &mut Rng) -> Closed {
    Closed {
        links: rng.percent(10),
        tags: rng.percent(10),
        runs: rng.percent(10),
        owner: rng.percent(10),
        group: rng.percent(10),
        mode: rng.percent(10),
    }
}

fn distinct(rng: &mut Rng, words: &[&[u8]], limit: usize) -> Vec<Vec<u8>> {
    let count = rng.below(limit);
    let mut entries: Vec<Vec<u8>> = words.iter().map(|word| word.to_vec()).collect();
    rng.shuffle(&mut entries);
    for index in entries.len()..count {
        entries.push(format!("entry{index}").into_bytes());
    }
    entries.truncate(count);
    entries
}

fn run(rng: &mut Rng, device: &Device, outcome: &Outcome) -> Run {
    let written = template(rng, device, outcome, &[b"/bin/x ", b"path_id", b" -v "]);
    Run {
        run_type: rng.pick(&[RunType::Program, RunType::Builtin]),
        matched: rng.between(0, device.chain.len()),
        template: Template::read(&written).expect("generated templates are well formed"),
    }
}
