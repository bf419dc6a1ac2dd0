//! What of a recording is not in the record that is made of it, and why.

use std::fmt;

use crate::escape::escape;
use crate::packed::{value_of, Entry};
use crate::recording::Block;
use crate::sizes;

#[derive(Clone, Copy, Debug, PartialEq, Eq)]
pub enum Kind {
    Attribute,
    Driver,
    Line,
    Link,
    Parent,
    Property,
    Subsystem,
}

#[derive(Clone, Copy, Debug, PartialEq, Eq)]
pub enum Reason {
    EarlierRun,
    SymbolicLink,
    NameBad,
    ValueLong,
    HoldsNul,
    Repeated,
    WordLong,
    Attributes,
    Properties,
    Chain,
    Record,
    Unknown,
}

/// Things of one kind that one device lacks for one reason, in the order of the recording.
#[derive(Clone, Debug, PartialEq, Eq)]
pub struct LeftOut {
    pub path: Vec<u8>,
    pub kind: Kind,
    pub names: Vec<Vec<u8>>,
    pub reason: Reason,
}

impl Kind {
    fn word(self, is_one: bool) -> &'static str {
        match (self, is_one) {
            (Kind::Attribute, true) => "attribute",
            (Kind::Attribute, false) => "attributes",
            (Kind::Driver, _) => "driver",
            (Kind::Line, true) => "line",
            (Kind::Line, false) => "lines",
            (Kind::Link, true) => "link",
            (Kind::Link, false) => "links",
            (Kind::Parent, true) => "parent",
            (Kind::Parent, false) => "parents",
            (Kind::Property, true) => "property",
            (Kind::Property, false) => "properties",
            (Kind::Subsystem, _) => "subsystem",
        }
    }
}

impl Reason {
    /// Whether it would be in the record if others were not.
    pub fn is_of_room(self) -> bool {
        matches!(
            self,
            Reason::Attributes | Reason::Properties | Reason::Record
        )
    }
}

impl fmt::Display for Reason {
    fn fmt(&self, f: &mut fmt::Formatter) -> fmt::Result {
        match self {
            Reason::EarlierRun => f.write_str("left by an earlier run of udev"),
            Reason::SymbolicLink => f.write_str("a symbolic link"),
            Reason::NameBad => write!(f, "a name has 1 to {} bytes, no NUL", sizes::NAME_MOST),
            Reason::ValueLong => write!(f, "a value has at most {} bytes", sizes::VALUE_MOST),
            Reason::HoldsNul => f.write_str("binary, with NUL bytes"),
            Reason::Repeated => f.write_str("recorded a second time"),
            Reason::WordLong => write!(f, "it has at most {} bytes", sizes::WORD_MOST),
            Reason::Attributes => write!(f, "a device has at most {}", sizes::ATTRIBUTES_MOST),
            Reason::Properties => write!(f, "a record has at most {}", sizes::PROPERTIES_MOST),
            Reason::Chain => write!(f, "a chain has at most {} devices", sizes::CHAIN_MOST),
            Reason::Record => write!(f, "a record has at most {} bytes", sizes::DEVICE_MOST),
            Reason::Unknown => f.write_str("not known here"),
        }
    }
}

impl fmt::Display for LeftOut {
    fn fmt(&self, f: &mut fmt::Formatter) -> fmt::Result {
        let kind = self.kind.word(self.names.len() == 1);
        let names: Vec<String> = self.names.iter().map(|name| escape(name)).collect();
        let (path, names) = (escape(&self.path), names.join(", "));
        write!(f, "{path}: left out {kind} {names}: {}", self.reason)
    }
}

#[derive(Default)]
pub struct Notes {
    notes: Vec<LeftOut>,
}

impl Notes {
    pub fn add(&mut self, block: &Block, kind: Kind, name: &[u8], reason: Reason) {
        let path = &block.path;
        let same =
            |note: &&mut LeftOut| note.path == *path && note.kind == kind && note.reason == reason;
        match self.notes.iter_mut().find(same) {
            Some(note) => note.names.push(name.to_vec()),
            None => self.notes.push(LeftOut {
                path: path.clone(),
                kind,
                names: vec![name.to_vec()],
                reason,
            }),
        }
    }

    pub fn add_all(&mut self, block: &Block, kind: Kind, names: &[Vec<u8>], reason: Reason) {
        for name in names {
            self.add(block, kind, name, reason);
        }
    }

    /// Puts an entry behind the others if a record can hold it beside them.
    pub fn push_if_sound(
        &mut self,
        block: &Block,
        kind: Kind,
        entries: &mut Vec<Entry>,
        entry: &Entry,
    ) {
        let Entry { name, value } = entry;
        let reason = if !(1..=sizes::NAME_MOST).contains(&name.len()) || name.contains(&0) {
            Reason::NameBad
        } else if value.contains(&0) {
            Reason::HoldsNul
        } else if value.len() > sizes::VALUE_MOST {
            Reason::ValueLong
        } else if value_of(entries, name).is_some() {
            Reason::Repeated
        } else {
            entries.push(entry.clone());
            return;
        };
        self.add(block, kind, name, reason);
    }

    /// The notes by the devices of the chain, those of one device in the order they came.
    pub fn in_order(mut self, chain: &[&Block]) -> Vec<LeftOut> {
        let place = |note: &LeftOut| chain.iter().position(|block| block.path == note.path);
        self.notes.sort_by_key(place);
        self.notes
    }
}
