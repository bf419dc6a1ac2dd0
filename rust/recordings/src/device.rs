//! The device record: an event, its device and the device's parents.

use crate::packed::{Entry, Reader, Writer};

const EDITION: usize = 1;
/// Edition, chain length less one, action, node, major, minor, properties, unused.
const HEAD: [u32; 8] = [4, 4, 3, 1, 12, 20, 6, 6];
/// Path, subsystem, driver, attributes, unused.
const DEVICE: [u32; 5] = [9, 6, 6, 5, 6];

/// An action, by its number in a record.
#[derive(Clone, Copy, Debug, PartialEq, Eq)]
pub struct Action(usize);

impl Action {
    pub const NAMES: [&'static str; 8] = [
        "add", "remove", "change", "move", "online", "offline", "bind", "unbind",
    ];
    pub const ADD: Action = Action(0);

    pub fn name(self) -> &'static str {
        Action::NAMES[self.0]
    }

    pub fn of_name(name: &[u8]) -> Option<Action> {
        let number = Action::NAMES
            .iter()
            .position(|known| known.as_bytes() == name)?;
        Some(Action(number))
    }
}

#[derive(Clone, Copy, Debug, PartialEq, Eq)]
pub struct Node {
    pub major: u32,
    pub minor: u32,
}

#[derive(Clone, Debug, Default, PartialEq, Eq)]
pub struct ChainDevice {
    pub path: Vec<u8>,
    pub subsystem: Vec<u8>,
    pub driver: Vec<u8>,
    pub attributes: Vec<Entry>,
}

impl ChainDevice {
    /// The last component of the path.
    pub fn name(&self) -> &[u8] {
        last_component(&self.path)
    }

    /// How many bytes of a record it takes without its attributes.
    pub fn packed_length_of_texts(&self) -> usize {
        4 + self.path.len() + self.subsystem.len() + self.driver.len()
    }
}

pub fn last_component(path: &[u8]) -> &[u8] {
    path.rsplit(|&byte| byte == b'/').next().unwrap_or(path)
}

#[derive(Clone, Debug, PartialEq, Eq)]
pub struct Device {
    pub action: Action,
    pub node: Option<Node>,
    pub properties: Vec<Entry>,
    /// The device of the event, then its parents.
    pub chain: Vec<ChainDevice>,
}

impl Device {
    pub const HEAD_LENGTH: usize = 7;

    /// The packed record, or `None` if a number or a length does not fit into its field.
    pub fn encode(&self) -> Option<Vec<u8>> {
        let mut writer = Writer::default();
        let node = self.node.unwrap_or(Node { major: 0, minor: 0 });
        writer.fields(
            HEAD,
            [
                EDITION,
                self.chain.len().checked_sub(1)?,
                self.action.0,
                usize::from(self.node.is_some()),
                node.major as usize,
                node.minor as usize,
                self.properties.len(),
                0,
            ],
        );
        writer.entries(&self.properties);
        for device in &self.chain {
            let texts = [&device.path, &device.subsystem, &device.driver];
            let [path, subsystem, driver] = texts.map(Vec::len);
            writer.fields(
                DEVICE,
                [path, subsystem, driver, device.attributes.len(), 0],
            );
            for text in texts {
                writer.text(text);
            }
            writer.entries(&device.attributes);
        }
        writer.finish()
    }

    /// What a record says, or `None` if it is cut short or laid out otherwise.
    pub fn decode(record: &[u8]) -> Option<Device> {
        let mut reader = Reader::new(record);
        let [edition, chain, action, node, major, minor, properties, _] = reader.fields(HEAD)?;
        if edition != EDITION {
            return None;
        }
        let device = Device {
            action: Action(action),
            node: (node == 1).then_some(Node {
                major: major as u32,
                minor: minor as u32,
            }),
            properties: reader.entries(properties)?,
            chain: (0..=chain)
                .map(|_| decode_device(&mut reader))
                .collect::<Option<_>>()?,
        };
        reader.end()?;
        Some(device)
    }
}

fn decode_device(reader: &mut Reader) -> Option<ChainDevice> {
    let [path, subsystem, driver, attributes, _] = reader.fields(DEVICE)?;
    Some(ChainDevice {
        path: reader.text(path)?,
        subsystem: reader.text(subsystem)?,
        driver: reader.text(driver)?,
        attributes: reader.entries(attributes)?,
    })
}
