//! The text form of device records.

use super::{each_line, entry_line, number, FormError, Line, Taken};
use crate::device::{Action, ChainDevice, Device, Node};
use crate::escape::escape_for_form;
use crate::packed::Entry;
use crate::sizes;

/// The device that a text form describes.
pub fn read_device(form: &[u8]) -> Result<Device, FormError> {
    let mut reading = Reading::default();
    each_line(form, |line| reading.take(line))?;
    reading.finish().map_err(|message| FormError {
        line: form.split(|&byte| byte == b'\n').count(),
        message,
    })
}

/// The text form of a device.
pub fn write_device(device: &Device) -> String {
    let mut form = format!("action {}\n", device.action.name());
    if let Some(Node { major, minor }) = device.node {
        form += &format!("node {major} {minor}\n");
    }
    for property in &device.properties {
        form += &entry_line("property", property);
    }
    for device in &device.chain {
        form += &format!("device {}\n", escape_for_form(&device.path));
        for (word, text) in [("subsystem", &device.subsystem), ("driver", &device.driver)] {
            if !text.is_empty() {
                form += &format!("  {word} {}\n", escape_for_form(text));
            }
        }
        for attribute in &device.attributes {
            form += &format!("  {}", entry_line("attribute", attribute));
        }
    }
    form
}

#[derive(Default)]
struct Reading {
    action: Option<Action>,
    node: Option<Node>,
    properties: Vec<Entry>,
    chain: Vec<Part>,
}

/// A device of the chain, as far as it is read.
#[derive(Default)]
struct Part {
    path: Vec<u8>,
    subsystem: Option<Vec<u8>>,
    driver: Option<Vec<u8>>,
    attributes: Vec<Entry>,
}

impl Reading {
    fn take(&mut self, line: &Line) -> Taken<()> {
        match line.word.as_str() {
            "action" | "node" | "property" => self.take_of_event(line),
            "device" => self.take_device(line),
            "subsystem" | "driver" | "attribute" => self.take_of_device(line),
            word => Err(format!(
                "unknown word `{}`; a device has action, node, property, device, subsystem, \
                 driver and attribute",
                escape_for_form(word.as_bytes())
            )),
        }
    }

    fn take_of_event(&mut self, line: &Line) -> Taken<()> {
        if !self.chain.is_empty() {
            return Err(format!("`{}` comes before the first `device`", line.word));
        }
        match line.word.as_str() {
            "action" => line.set_once(&mut self.action, action(line)?),
            "node" => line.set_once(&mut self.node, node(line)?),
            _ => line.add_entry(&mut self.properties, sizes::PROPERTIES_MOST),
        }
    }

    fn take_device(&mut self, line: &Line) -> Taken<()> {
        let path = line.bytes(1..=sizes::PATH_MOST)?;
        if !is_sound_path(&path) {
            return Err(String::from(
                "a path starts with `/` and has no empty component",
            ));
        }
        if let Some(child) = self.chain.last() {
            if !is_parent(&path, &child.path) {
                return Err(String::from(
                    "a parent's path is the path before it, cut before one of its later slashes",
                ));
            }
        }
        self.chain.push(Part {
            path,
            ..Part::default()
        });
        line.at_most(sizes::CHAIN_MOST, self.chain.len())
    }

    fn take_of_device(&mut self, line: &Line) -> Taken<()> {
        let Some(device) = self.chain.last_mut() else {
            return Err(format!("`{}` comes behind its `device`", line.word));
        };
        let word = |line: &Line| line.bytes(0..=sizes::WORD_MOST);
        match line.word.as_str() {
            "subsystem" => line.set_once(&mut device.subsystem, word(line)?),
            "driver" => line.set_once(&mut device.driver, word(line)?),
            _ => line.add_entry(&mut device.attributes, sizes::ATTRIBUTES_MOST),
        }
    }

    fn finish(self) -> Taken<Device> {
        if self.chain.is_empty() {
            return Err(String::from("no `device`"));
        }
        let device = Device {
            action: self.action.unwrap_or(Action::ADD),
            node: self.node,
            properties: self.properties,
            chain: self.chain.into_iter().map(Part::finish).collect(),
        };
        let length = device.encode().map_or(0, |record| record.len());
        if length > sizes::DEVICE_MOST {
            let most = sizes::DEVICE_MOST;
            return Err(format!(
                "the packed record has {length} bytes; it takes {most}"
            ));
        }
        Ok(device)
    }
}

impl Part {
    fn finish(self) -> ChainDevice {
        ChainDevice {
            path: self.path,
            subsystem: self.subsystem.unwrap_or_default(),
            driver: self.driver.unwrap_or_default(),
            attributes: self.attributes,
        }
    }
}

fn action(line: &Line) -> Taken<Action> {
    Action::of_name(line.text).ok_or_else(|| {
        let names = Action::NAMES.join(", ");
        format!("`action` takes one of {names}")
    })
}

fn node(line: &Line) -> Taken<Node> {
    let [major, minor] = line.words()[..] else {
        return Err(String::from("`node` takes a major and a minor number"));
    };
    Ok(Node {
        major: number(major, 0..=sizes::MAJOR_MOST)?,
        minor: number(minor, 0..=sizes::MINOR_MOST)?,
    })
}

fn is_sound_path(path: &[u8]) -> bool {
    let mut components = path.split(|&byte| byte == b'/');
    components.next().is_some_and(<[u8]>::is_empty)
        && path.len() > 1
        && components.all(|component| !component.is_empty())
}

/// Whether a path is that of a child, cut before a slash other than the first.
pub(crate) fn is_parent(path: &[u8], child: &[u8]) -> bool {
    let rest = child.strip_prefix(path);
    !path.is_empty() && rest.is_some_and(|rest| rest.starts_with(b"/"))
}
