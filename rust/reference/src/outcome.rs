//! The outcome record: what the rules have made of a device so far.

use crate::bytes::all_distinct;
use crate::device::{Device, Place};
use crate::link::is_sound_link;
use crate::property::{read_properties, write_properties, Property};
use crate::record::{BitReader, BitWriter};
use crate::sizes;
use crate::template::Template;

/// The layouts of the record: the second everywhere, and the first for the converters alone.
#[derive(Clone, Copy, Debug, PartialEq, Eq)]
pub enum Edition {
    First,
    Second,
}

impl Edition {
    fn number(self) -> u32 {
        match self {
            Edition::First => 1,
            Edition::Second => 2,
        }
    }
}

/// The keys that `:=` has closed.
#[derive(Clone, Copy, Debug, Default, PartialEq, Eq)]
pub struct Closed {
    pub links: bool,
    pub tags: bool,
    pub runs: bool,
    pub owner: bool,
    pub group: bool,
    pub mode: bool,
}

#[derive(Clone, Copy, Debug, PartialEq, Eq)]
pub enum RunType {
    Program,
    Builtin,
}

#[derive(Clone, Debug, PartialEq, Eq)]
pub struct Run {
    pub run_type: RunType,
    /// The place of the device that the rule's parent keys matched.
    pub matched: Place,
    pub template: Template,
}

/// Whether the device node is to be watched.
#[derive(Clone, Copy, Debug, Default, PartialEq, Eq)]
pub enum Watch {
    #[default]
    Unset,
    Watch,
    Nowatch,
}

#[derive(Clone, Debug, Default, PartialEq, Eq)]
pub struct Outcome {
    pub closed: Closed,
    pub owner: Option<Vec<u8>>,
    pub group: Option<Vec<u8>>,
    pub mode: Option<u32>,
    pub priority: i32,
    pub links: Vec<Vec<u8>>,
    pub properties: Vec<Property>,
    pub tags: Vec<Vec<u8>>,
    pub runs: Vec<Run>,
    /// What a program said last.
    pub output: Vec<u8>,
    pub watch: Watch,
}

impl Outcome {
    pub fn fresh(device: &Device) -> Outcome {
        Outcome {
            properties: device.properties.clone(),
            ..Outcome::default()
        }
    }

    /// The outcome of a record for a chain of that length, or `None` if the record is faulty.
    pub fn decode(record: &[u8], chain_length: usize) -> Option<Outcome> {
        Outcome::decode_edition(Edition::Second, record, chain_length)
    }

    pub fn decode_edition(edition: Edition, record: &[u8], chain_length: usize) -> Option<Outcome> {
        let mut reader = BitReader::new(record);
        let outcome = Outcome::read(&mut reader, edition)?;
        reader.end()?;
        outcome.is_sound(chain_length).then_some(outcome)
    }

    fn read(reader: &mut BitReader, edition: Edition) -> Option<Outcome> {
        if reader.field(4)? != edition.number() {
            return None;
        }
        let closed = read_closed(reader)?;
        let owner_length = reader.count(6)?;
        let group_length = reader.count(6)?;
        let mode = read_mode(reader)?;
        let priority = reader.field(32)? as i32;
        let link_count = reader.count(5)?;
        let property_count = reader.count(6)?;
        let tag_count = reader.count(5)?;
        let run_count = reader.count(5)?;
        let (output, watch) = match edition {
            Edition::First => (Vec::new(), Watch::Unset),
            Edition::Second => read_output_and_watch(reader)?,
        };
        Some(Outcome {
            output,
            watch,
            closed,
            owner: read_optional_text(reader, owner_length)?,
            group: read_optional_text(reader, group_length)?,
            mode,
            priority,
            links: read_entries(reader, link_count)?,
            properties: read_properties(reader, property_count)?,
            tags: read_entries(reader, tag_count)?,
            runs: (0..run_count)
                .map(|_| Run::read(reader))
                .collect::<Option<_>>()?,
        })
    }

    fn is_sound(&self, chain_length: usize) -> bool {
        let names = [&self.owner, &self.group];
        names
            .into_iter()
            .flatten()
            .all(|name| is_sound_owner_or_group(name))
            && !self.mode.is_some_and(lets_others_write)
            && self.links.len() <= sizes::LINKS
            && self.links.iter().all(|link| is_sound_link(link))
            && all_distinct(self.links.iter().map(Vec::as_slice))
            && self.properties.len() <= sizes::PROPERTIES
            && self.tags.len() <= sizes::TAGS
            && self.tags.iter().all(|tag| is_sound_tag(tag))
            && all_distinct(self.tags.iter().map(Vec::as_slice))
            && self.runs.len() <= sizes::RUNS
            && self.runs.iter().all(|run| run.is_sound(chain_length))
            && self.output.len() <= sizes::OUTPUT
    }

    /// Whether a record of edition 1 can say all of it.
    pub fn fits_edition_1(&self) -> bool {
        self.output.is_empty() && self.watch == Watch::Unset
    }

    /// The record of an outcome whose lengths and numbers fit into their fields.
    pub fn encode(&self) -> Vec<u8> {
        self.encode_edition(Edition::Second)
    }

    pub fn encode_edition(&self, edition: Edition) -> Vec<u8> {
        let mut writer = BitWriter::new();
        let owner = self.owner.as_deref().unwrap_or_default();
        let group = self.group.as_deref().unwrap_or_default();
        writer.field(4, edition.number());
        write_closed(&mut writer, &self.closed);
        writer.count(6, owner.len());
        writer.count(6, group.len());
        writer.flag(self.mode.is_some());
        writer.field(12, self.mode.unwrap_or(0));
        writer.field(32, self.priority as u32);
        writer.count(5, self.links.len());
        writer.count(6, self.properties.len());
        writer.count(5, self.tags.len());
        writer.count(5, self.runs.len());
        if edition == Edition::Second {
            writer.count(10, self.output.len());
            writer.field(2, self.watch as u32);
            writer.unused(4);
            writer.text(&self.output);
        }
        writer.text(owner);
        writer.text(group);
        write_entries(&mut writer, &self.links);
        write_properties(&mut writer, &self.properties);
        write_entries(&mut writer, &self.tags);
        for run in &self.runs {
            run.write(&mut writer);
        }
        writer.finish()
    }
}

impl Run {
    fn read(reader: &mut BitReader) -> Option<Run> {
        let is_builtin = reader.flag()?;
        let matched = reader.count(5)?;
        let length = reader.count(9)?;
        reader.unused(1)?;
        Some(Run {
            run_type: RunType::of_bit(is_builtin),
            matched,
            template: Template::read(&reader.text(length)?)?,
        })
    }

    fn is_sound(&self, chain_length: usize) -> bool {
        self.matched <= chain_length && (1..=sizes::RUN).contains(&self.template.written().len())
    }

    fn write(&self, writer: &mut BitWriter) {
        let template = self.template.written();
        writer.flag(self.run_type.bit());
        writer.count(5, self.matched);
        writer.count(9, template.len());
        writer.unused(1);
        writer.text(template);
    }
}

impl RunType {
    pub fn of_bit(is_builtin: bool) -> RunType {
        if is_builtin {
            RunType::Builtin
        } else {
            RunType::Program
        }
    }

    pub fn bit(self) -> bool {
        self == RunType::Builtin
    }

    pub fn name(self) -> &'static str {
        match self {
            RunType::Program => "program",
            RunType::Builtin => "builtin",
        }
    }
}

/// The end of the header, and the text that comes right after it.
fn read_output_and_watch(reader: &mut BitReader) -> Option<(Vec<u8>, Watch)> {
    let length = reader.count(10)?;
    let watch = match reader.field(2)? {
        0 => Watch::Unset,
        1 => Watch::Watch,
        2 => Watch::Nowatch,
        _ => return None,
    };
    reader.unused(4)?;
    Some((reader.text(length)?, watch))
}

impl Watch {
    /// The setting of OPTIONS, and the word of the listing.
    pub fn word(self) -> Option<&'static str> {
        match self {
            Watch::Unset => None,
            Watch::Watch => Some("watch"),
            Watch::Nowatch => Some("nowatch"),
        }
    }
}

fn read_closed(reader: &mut BitReader) -> Option<Closed> {
    Some(Closed {
        links: reader.flag()?,
        tags: reader.flag()?,
        runs: reader.flag()?,
        owner: reader.flag()?,
        group: reader.flag()?,
        mode: reader.flag()?,
    })
}

fn write_closed(writer: &mut BitWriter, closed: &Closed) {
    writer.flag(closed.links);
    writer.flag(closed.tags);
    writer.flag(closed.runs);
    writer.flag(closed.owner);
    writer.flag(closed.group);
    writer.flag(closed.mode);
}

fn read_mode(reader: &mut BitReader) -> Option<Option<u32>> {
    let is_set = reader.flag()?;
    let mode = reader.field(12)?;
    match (is_set, mode) {
        (true, mode) => Some(Some(mode)),
        (false, 0) => Some(None),
        (false, _) => None,
    }
}

/// A text that is unset if its length is 0.
fn read_optional_text(reader: &mut BitReader, length: usize) -> Option<Option<Vec<u8>>> {
    let text = reader.text(length)?;
    Some((!text.is_empty()).then_some(text))
}

/// Links or tags.
fn read_entries(reader: &mut BitReader, count: usize) -> Option<Vec<Vec<u8>>> {
    let mut read_entry = || {
        let length = reader.count(8)?;
        reader.text(length)
    };
    (0..count).map(|_| read_entry()).collect()
}

fn write_entries(writer: &mut BitWriter, entries: &[Vec<u8>]) {
    for entry in entries {
        writer.count(8, entry.len());
        writer.text(entry);
    }
}

pub fn is_sound_owner_or_group(name: &[u8]) -> bool {
    (1..=sizes::OWNER).contains(&name.len())
        && name
            .iter()
            .all(|&byte| byte.is_ascii_alphanumeric() || b"_-.".contains(&byte))
}

/// Refusal 36 is given for such a mode.
pub fn lets_others_write(mode: u32) -> bool {
    mode & 0o002 != 0
}

pub fn is_sound_tag(tag: &[u8]) -> bool {
    (1..=sizes::TAG).contains(&tag.len())
}
