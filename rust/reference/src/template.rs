//! Templates, and what is put in for their pieces.

use crate::bytes::{is_whitespace, without_trailing_whitespace};
use crate::device::{Device, Place};
use crate::property::{value_of, Property};
use crate::sizes;

#[derive(Clone, Debug, PartialEq, Eq)]
pub struct Template {
    written: Vec<u8>,
    pieces: Vec<Piece>,
}

#[derive(Clone, Debug, PartialEq, Eq)]
pub enum Piece {
    Written(Vec<u8>),
    Kernel,
    Number,
    Devpath,
    Id,
    Driver,
    Attr(Vec<u8>),
    Env(Vec<u8>),
    Major,
    Minor,
    Result,
}

/// What the pieces of a template are looked up in.
pub struct Sources<'a> {
    pub device: &'a Device,
    pub properties: &'a [Property],
    /// What a program said last.
    pub output: &'a [u8],
    /// The place of the device that the rule's parent keys matched.
    pub matched: Place,
}

#[derive(Clone, Copy, Debug, PartialEq, Eq)]
pub enum Inserted {
    AsItIs,
    WhitespaceReplaced,
}

impl Template {
    /// The template of a value, or `None` if it is not well formed.
    pub fn read(value: &[u8]) -> Option<Template> {
        let mut pieces = Vec::new();
        let mut rest = value;
        while let Some((&byte, after)) = rest.split_first() {
            let (piece, after) = match byte {
                b'$' => read_long_name(after)?,
                b'%' => read_letter(after)?,
                _ => read_written(rest),
            };
            pieces.push(piece);
            rest = after;
        }
        Some(Template {
            written: value.to_vec(),
            pieces,
        })
    }

    /// The value that the template was read from.
    pub fn written(&self) -> &[u8] {
        &self.written
    }

    pub fn pieces(&self) -> &[Piece] {
        &self.pieces
    }

    /// The substituted text, or `None` if it is too long.
    pub fn substitute(&self, sources: &Sources, inserted: Inserted) -> Option<Vec<u8>> {
        let mut text = Vec::new();
        for piece in &self.pieces {
            match piece {
                Piece::Written(written) => text.extend_from_slice(written),
                _ => text.extend(insertion(&sources.look_up(piece), inserted)),
            }
        }
        (text.len() <= sizes::SUBSTITUTED).then_some(text)
    }
}

fn read_written(rest: &[u8]) -> (Piece, &[u8]) {
    let end = rest.iter().position(|byte| matches!(byte, b'$' | b'%'));
    let (written, after) = rest.split_at(end.unwrap_or(rest.len()));
    (Piece::Written(written.to_vec()), after)
}

fn read_long_name(rest: &[u8]) -> Option<(Piece, &[u8])> {
    let plain_names: [(&[u8], Piece); 8] = [
        (b"$", Piece::Written(b"$".to_vec())),
        (b"kernel", Piece::Kernel),
        (b"number", Piece::Number),
        (b"devpath", Piece::Devpath),
        (b"id", Piece::Id),
        (b"driver", Piece::Driver),
        (b"major", Piece::Major),
        (b"minor", Piece::Minor),
    ];
    for (name, piece) in plain_names {
        if let Some(after) = rest.strip_prefix(name) {
            return Some((piece, after));
        }
    }
    if let Some(after) = rest.strip_prefix(b"result") {
        return read_result(after);
    }
    if let Some(after) = rest.strip_prefix(b"attr") {
        let (name, after) = read_braces(after)?;
        return Some((Piece::Attr(name), after));
    }
    let after = rest.strip_prefix(b"env")?;
    let (key, after) = read_braces(after)?;
    Some((Piece::Env(key), after))
}

fn read_letter(rest: &[u8]) -> Option<(Piece, &[u8])> {
    let (letter, after) = rest.split_first()?;
    let piece = match letter {
        b'%' => Piece::Written(b"%".to_vec()),
        b'k' => Piece::Kernel,
        b'n' => Piece::Number,
        b'p' => Piece::Devpath,
        b'b' => Piece::Id,
        b'M' => Piece::Major,
        b'm' => Piece::Minor,
        b'c' => return read_result(after),
        b's' => {
            let (name, after) = read_braces(after)?;
            return Some((Piece::Attr(name), after));
        }
        b'E' => {
            let (key, after) = read_braces(after)?;
            return Some((Piece::Env(key), after));
        }
        _ => return None,
    };
    Some((piece, after))
}

/// The whole output is inserted: a brace directly behind it is a content fault.
fn read_result(after: &[u8]) -> Option<(Piece, &[u8])> {
    (!after.starts_with(b"{")).then_some((Piece::Result, after))
}

fn read_braces(rest: &[u8]) -> Option<(Vec<u8>, &[u8])> {
    let inside = rest.strip_prefix(b"{")?;
    let length = inside.iter().position(|&byte| byte == b'}')?;
    (1..=sizes::ARGUMENT)
        .contains(&length)
        .then(|| (inside[..length].to_vec(), &inside[length + 1..]))
}

impl Sources<'_> {
    fn look_up(&self, piece: &Piece) -> Vec<u8> {
        let event_device = self.device.event_device();
        let node = self.device.node;
        match piece {
            Piece::Written(written) => written.clone(),
            Piece::Kernel => event_device.name().to_vec(),
            Piece::Number => event_device.number().to_vec(),
            Piece::Devpath => event_device.path.clone(),
            Piece::Id => self.matched_id().to_vec(),
            Piece::Driver => self.matched_driver().to_vec(),
            Piece::Attr(name) => self.attribute(name).to_vec(),
            Piece::Env(key) => value_of(self.properties, key).unwrap_or_default().to_vec(),
            Piece::Major => decimal(node.map_or(0, |node| node.major)),
            Piece::Minor => decimal(node.map_or(0, |node| node.minor)),
            Piece::Result => self.output.to_vec(),
        }
    }

    fn matched_id(&self) -> &[u8] {
        let matched = self.device.at(self.matched);
        matched.map_or(&[], |device| device.name())
    }

    fn matched_driver(&self) -> &[u8] {
        let matched = self.device.at(self.matched);
        matched.map_or(&[], |device| &device.driver)
    }

    fn attribute(&self, name: &[u8]) -> &[u8] {
        let of_event_device = value_of(&self.device.event_device().attributes, name);
        let of_matched = || {
            let matched = self.device.at(self.matched)?;
            value_of(&matched.attributes, name)
        };
        let value = of_event_device.or_else(of_matched).unwrap_or_default();
        without_trailing_whitespace(value)
    }
}

fn decimal(number: u32) -> Vec<u8> {
    number.to_string().into_bytes()
}

fn insertion(text: &[u8], inserted: Inserted) -> Vec<u8> {
    let replaced = |&byte: &u8| if is_whitespace(byte) { b'_' } else { byte };
    match inserted {
        Inserted::AsItIs => text.to_vec(),
        Inserted::WhitespaceReplaced => text.iter().map(replaced).collect(),
    }
}
