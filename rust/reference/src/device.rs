//! The device record: the event device, its parents and the event itself.

use crate::property::{read_properties, write_properties, Attribute, Property};
use crate::record::{BitReader, BitWriter};
use crate::sizes;

const EDITION: u32 = 1;

#[derive(Clone, Copy, Debug, PartialEq, Eq)]
pub enum Action {
    Add,
    Remove,
    Change,
    Move,
    Online,
    Offline,
    Bind,
    Unbind,
}

impl Action {
    /// In the order of their numbers in the record.
    pub const ALL: [Action; 8] = [
        Action::Add,
        Action::Remove,
        Action::Change,
        Action::Move,
        Action::Online,
        Action::Offline,
        Action::Bind,
        Action::Unbind,
    ];

    pub fn name(self) -> &'static str {
        match self {
            Action::Add => "add",
            Action::Remove => "remove",
            Action::Change => "change",
            Action::Move => "move",
            Action::Online => "online",
            Action::Offline => "offline",
            Action::Bind => "bind",
            Action::Unbind => "unbind",
        }
    }
}

#[derive(Clone, Copy, Debug, PartialEq, Eq)]
pub struct Node {
    pub major: u32,
    pub minor: u32,
}

/// A place in the chain: 0 is none, 1 the event device, 2 the parent after it, and so on.
pub type Place = usize;

pub const NO_PLACE: Place = 0;
pub const EVENT_DEVICE: Place = 1;

/// One device of the chain.
#[derive(Clone, Debug, PartialEq, Eq)]
pub struct ChainDevice {
    pub path: Vec<u8>,
    pub subsystem: Vec<u8>,
    pub driver: Vec<u8>,
    pub attributes: Vec<Attribute>,
}

#[derive(Clone, Debug, PartialEq, Eq)]
pub struct Device {
    pub action: Action,
    pub node: Option<Node>,
    pub properties: Vec<Property>,
    /// The event device first, then its parents; never empty.
    pub chain: Vec<ChainDevice>,
}

impl ChainDevice {
    /// The last component of the path.
    pub fn name(&self) -> &[u8] {
        let slash = self.path.iter().rposition(|&byte| byte == b'/');
        slash.map_or(&self.path[..], |slash| &self.path[slash + 1..])
    }

    /// The digits that the name ends in; there may be none.
    pub fn number(&self) -> &[u8] {
        let name = self.name();
        let last_other = name.iter().rposition(|byte| !byte.is_ascii_digit());
        last_other.map_or(name, |last_other| &name[last_other + 1..])
    }

    fn read(reader: &mut BitReader) -> Option<ChainDevice> {
        let path_length = reader.count(9)?;
        let subsystem_length = reader.count(6)?;
        let driver_length = reader.count(6)?;
        let attribute_count = reader.count(5)?;
        reader.unused(6)?;
        let device = ChainDevice {
            path: reader.text(path_length)?,
            subsystem: reader.text(subsystem_length)?,
            driver: reader.text(driver_length)?,
            attributes: read_properties(reader, attribute_count)?,
        };
        is_sound_path(&device.path).then_some(device)
    }

    fn write(&self, writer: &mut BitWriter) {
        writer.count(9, self.path.len());
        writer.count(6, self.subsystem.len());
        writer.count(6, self.driver.len());
        writer.count(5, self.attributes.len());
        writer.unused(6);
        writer.text(&self.path);
        writer.text(&self.subsystem);
        writer.text(&self.driver);
        write_properties(writer, &self.attributes);
    }
}

impl Device {
    pub fn event_device(&self) -> &ChainDevice {
        &self.chain[0]
    }

    pub fn at(&self, place: Place) -> Option<&ChainDevice> {
        self.chain.get(place.checked_sub(EVENT_DEVICE)?)
    }

    /// The device of a record, or `None` if the record is faulty.
    pub fn decode(record: &[u8]) -> Option<Device> {
        if record.len() > sizes::DEVICE_RECORD {
            return None;
        }
        let mut reader = BitReader::new(record);
        let device = Device::read(&mut reader)?;
        reader.end()?;
        Some(device)
    }

    fn read(reader: &mut BitReader) -> Option<Device> {
        if reader.field(4)? != EDITION {
            return None;
        }
        let chain_length = reader.count(4)? + 1;
        let action = Action::ALL[reader.count(3)?];
        let node = read_node(reader)?;
        let property_count = reader.count(6)?;
        reader.unused(6)?;
        if property_count > sizes::PROPERTIES {
            return None;
        }
        let properties = read_properties(reader, property_count)?;
        let chain: Vec<ChainDevice> = (0..chain_length)
            .map(|_| ChainDevice::read(reader))
            .collect::<Option<_>>()?;
        is_sound_chain(&chain).then_some(Device {
            action,
            node,
            properties,
            chain,
        })
    }

    /// The record of a device whose lengths and numbers fit into their fields.
    pub fn encode(&self) -> Vec<u8> {
        let mut writer = BitWriter::new();
        writer.field(4, EDITION);
        writer.count(4, self.chain.len() - 1);
        writer.field(3, self.action as u32);
        writer.flag(self.node.is_some());
        let node = self.node.unwrap_or(Node { major: 0, minor: 0 });
        writer.field(12, node.major);
        writer.field(20, node.minor);
        writer.count(6, self.properties.len());
        writer.unused(6);
        write_properties(&mut writer, &self.properties);
        for device in &self.chain {
            device.write(&mut writer);
        }
        writer.finish()
    }
}

fn read_node(reader: &mut BitReader) -> Option<Option<Node>> {
    let has_node = reader.flag()?;
    let major = reader.field(12)?;
    let minor = reader.field(20)?;
    match (has_node, major, minor) {
        (true, major, minor) => Some(Some(Node { major, minor })),
        (false, 0, 0) => Some(None),
        (false, _, _) => None,
    }
}

/// Starts with a slash, and each slash is followed by a component that is not empty.
pub fn is_sound_path(path: &[u8]) -> bool {
    let Some(components) = path.strip_prefix(b"/") else {
        return false;
    };
    path.len() <= sizes::PATH
        && components
            .split(|&byte| byte == b'/')
            .all(|component| !component.is_empty())
}

/// Whether the parent's path is the child's, cut before a slash other than the first.
pub fn is_parent_path(parent: &[u8], child: &[u8]) -> bool {
    !parent.is_empty() && child.starts_with(parent) && child.get(parent.len()) == Some(&b'/')
}

fn is_sound_chain(chain: &[ChainDevice]) -> bool {
    chain
        .windows(2)
        .all(|pair| is_parent_path(&pair[1].path, &pair[0].path))
}
