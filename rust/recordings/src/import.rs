//! A device record made from a recording, within the sizes of records.

mod left_out;
mod room;

use std::collections::BTreeSet;

use crate::device::{last_component, Action, ChainDevice, Device, Node};
use crate::escape::escape;
use crate::form;
use crate::packed::{value_of, Entry};
use crate::recording::Block;
use crate::sizes;

use left_out::Notes;
pub use left_out::{Kind, LeftOut, Reason};
use room::Room;

/// Properties that an earlier run of udev left.
const OF_EARLIER_RUN: [&[u8]; 4] = [b"DEVLINKS", b"TAGS", b"CURRENT_TAGS", b"USEC_INITIALIZED"];

/// Symbolic links that udev reads as attributes. Other links are none there either.
const READ_AS_ATTRIBUTES: [&[u8]; 2] = [b"module", b"subsystem"];

/// Names that a rules text asks for; what has such a name is kept first.
#[derive(Clone, Debug, Default)]
pub struct Named {
    pub attributes: BTreeSet<Vec<u8>>,
    pub properties: BTreeSet<Vec<u8>>,
}

/// A device, and what of its recording is not in it.
#[derive(Clone, Debug)]
pub struct Imported {
    pub device: Device,
    pub left_out: Vec<LeftOut>,
}

/// The device of a block, with those blocks as parents whose paths lead to it.
pub fn import(blocks: &[Block], event: usize, named: &Named) -> Result<Imported, String> {
    let mut notes = Notes::default();
    let chain = chain(blocks, event, &mut notes);
    let block = chain[0];
    if block.path.len() > sizes::PATH_MOST {
        return Err(format!(
            "the path is longer than {} bytes",
            sizes::PATH_MOST
        ));
    }
    let action = action(block)?;
    let mut devices: Vec<ChainDevice> =
        chain.iter().map(|block| texts(block, &mut notes)).collect();
    let mut room = Room::behind(&devices);

    notes.add_all(block, Kind::Link, &block.links, Reason::EarlierRun);
    let properties = properties(block, action, &mut notes);
    let is_named = |name: &[u8]| is_given(name) || named.properties.contains(name);
    let properties = room.keep_properties(block, properties, is_named, &mut notes);

    let attributes = chain
        .iter()
        .map(|block| attributes(block, &mut notes))
        .collect();
    let kept = room.keep_attributes(&chain, attributes, &named.attributes, &mut notes);
    for (device, attributes) in devices.iter_mut().zip(kept) {
        device.attributes = attributes;
    }
    let device = Device {
        action,
        node: node(block)?,
        properties,
        chain: devices,
    };
    Ok(Imported {
        device,
        left_out: notes.in_order(&chain),
    })
}

/// The block itself, then its parents, the nearest first.
fn chain<'a>(blocks: &'a [Block], event: usize, notes: &mut Notes) -> Vec<&'a Block> {
    let block = &blocks[event];
    let mut parents: Vec<&Block> = Vec::new();
    for other in blocks {
        let is_new = parents.iter().all(|parent| parent.path != other.path);
        if form::is_parent(&other.path, &block.path) && is_new {
            parents.push(other);
        }
    }
    parents.sort_by_key(|parent| std::cmp::Reverse(parent.path.len()));
    let mut chain = vec![block];
    for parent in parents {
        if chain.len() < sizes::CHAIN_MOST {
            chain.push(parent);
        } else {
            notes.add(block, Kind::Parent, &parent.path, Reason::Chain);
        }
    }
    chain
}

/// A device with its path, subsystem and driver.
fn texts(block: &Block, notes: &mut Notes) -> ChainDevice {
    let property = |name: &[u8]| value_of(&block.properties, name);
    let linked = value_of(&block.symbolic_links, b"driver").map(last_component);
    let subsystem = property(b"SUBSYSTEM").or(block.subsystem.as_deref());
    let driver = linked.or(property(b"DRIVER")).or(block.driver.as_deref());
    let mut word = |kind: Kind, text: Option<&[u8]>| {
        let text = text.unwrap_or_default();
        if text.len() > sizes::WORD_MOST {
            notes.add(block, kind, text, Reason::WordLong);
            return Vec::new();
        }
        text.to_vec()
    };
    ChainDevice {
        path: block.path.clone(),
        subsystem: word(Kind::Subsystem, subsystem),
        driver: word(Kind::Driver, driver),
        attributes: Vec::new(),
    }
}

/// The properties that every event has, whatever the recording says of them.
fn is_given(name: &[u8]) -> bool {
    matches!(name, b"ACTION" | b"DEVPATH")
}

/// All properties that a record could hold: ACTION and DEVPATH, as the kernel gives them, first.
fn properties(block: &Block, action: Action, notes: &mut Notes) -> Vec<Entry> {
    let mut properties = vec![
        Entry::new("ACTION", action.name()),
        Entry::new("DEVPATH", &block.path[..]),
    ];
    for property in &block.properties {
        let name = &property.name;
        if is_given(name) {
            continue;
        }
        if OF_EARLIER_RUN.contains(&name.as_slice()) {
            notes.add(block, Kind::Property, name, Reason::EarlierRun);
        } else {
            notes.push_if_sound(block, Kind::Property, &mut properties, property);
        }
    }
    properties
}

/// All attributes of a block that a record could hold.
fn attributes(block: &Block, notes: &mut Notes) -> Vec<Entry> {
    let mut attributes = Vec::new();
    for attribute in &block.attributes {
        notes.push_if_sound(block, Kind::Attribute, &mut attributes, attribute);
    }
    for link in &block.symbolic_links {
        if READ_AS_ATTRIBUTES.contains(&link.name.as_slice()) {
            notes.add(block, Kind::Attribute, &link.name, Reason::SymbolicLink);
        }
    }
    notes.add_all(block, Kind::Line, &block.unknown, Reason::Unknown);
    attributes
}

fn action(block: &Block) -> Result<Action, String> {
    match value_of(&block.properties, b"ACTION") {
        None => Ok(Action::ADD),
        Some(name) => Action::of_name(name)
            .ok_or_else(|| format!("the property ACTION is `{}`, no action", escape(name))),
    }
}

fn node(block: &Block) -> Result<Option<Node>, String> {
    let property = |name: &[u8]| value_of(&block.properties, name);
    if let (Some(major), Some(minor)) = (property(b"MAJOR"), property(b"MINOR")) {
        return numbers(major, minor).map(Some);
    }
    let written = value_of(&block.attributes, b"dev").or(block.numbers.as_deref());
    let Some(written) = written.map(<[u8]>::trim_ascii_end) else {
        return Ok(None);
    };
    match written.iter().position(|&byte| byte == b':') {
        Some(colon) => numbers(&written[..colon], &written[colon + 1..]).map(Some),
        None => Err(format!("`{}` is no MAJOR:MINOR", escape(written))),
    }
}

fn numbers(major: &[u8], minor: &[u8]) -> Result<Node, String> {
    Ok(Node {
        major: form::number(major, 0..=sizes::MAJOR_MOST)?,
        minor: form::number(minor, 0..=sizes::MINOR_MOST)?,
    })
}
