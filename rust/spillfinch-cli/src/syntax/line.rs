//! A line read pair by pair, up to its first fault.

use spillfinch::{sizes, Refusal};

use super::cursor::Cursor;
use super::key::{Key, Operator};
use super::template::{self, Piece};
use super::{is_blank, Fault, Span};

#[derive(Clone, Debug, PartialEq, Eq)]
pub struct Pair {
    pub key: Key,
    /// Empty where there is none.
    pub argument: Vec<u8>,
    pub operator: Operator,
    pub value: Value,
    pub span: Span,
}

impl Pair {
    /// Whether it is judged, not assigned.
    pub fn is_match(&self) -> bool {
        self.key.is_judged(self.operator)
    }

    pub fn assigns(&self, key: Key) -> bool {
        self.key == key && !self.is_match()
    }

    /// The pieces of its template, if its value is one.
    pub fn pieces(&self) -> Vec<Piece<'_>> {
        if !self.key.takes_template(self.operator) {
            return Vec::new();
        }
        template::pieces(&self.value.bytes).unwrap_or_default()
    }
}

/// A value without its quotation marks.
#[derive(Clone, Debug, PartialEq, Eq)]
pub struct Value {
    pub bytes: Vec<u8>,
    /// With the marks, and the `e` before them.
    pub span: Span,
    /// Where each byte is written in the line, and the closing mark.
    pub(super) places: Vec<usize>,
}

impl Value {
    /// The place in the line of a part of the value.
    pub fn place(&self, part: &Span) -> Span {
        let start = self.places[part.start];
        start..self.places[part.end].max(start + 1)
    }
}

/// The pairs of a line before its first fault. A line that is no rule has none.
#[derive(Clone, Debug, Default)]
pub struct Read {
    pub pairs: Vec<Pair>,
    pub fault: Option<Fault>,
}

pub fn read_line(line: &[u8]) -> Read {
    let mut read = Read::default();
    read.fault = read_pairs(line, &mut read.pairs).err();
    read
}

/// Whether a line runs nothing: blank, or a comment.
pub fn is_skipped(line: &[u8]) -> bool {
    let first = line.iter().find(|byte| !is_blank(byte));
    matches!(first, None | Some(b'#'))
}

pub(super) fn fault<T>(
    refusal: Refusal,
    span: Span,
    hint: impl Into<Option<String>>,
) -> Result<T, Fault> {
    Err(Fault {
        refusal,
        span,
        hint: hint.into(),
    })
}

fn read_pairs(line: &[u8], pairs: &mut Vec<Pair>) -> Result<(), Fault> {
    if let Some(nul) = line.iter().position(|&byte| byte == 0) {
        let hint = String::from("a NUL byte");
        return fault(Refusal::LineBad, nul..nul + 1, hint);
    }
    if line.len() > sizes::LINE_MOST {
        let hint = format!("the line has {} bytes", line.len());
        return fault(Refusal::LineBad, sizes::LINE_MOST..line.len(), hint);
    }
    if is_skipped(line) {
        return Ok(());
    }
    let mut cursor = Cursor::new(line);
    loop {
        let pair = cursor.pair()?;
        check_count(&pair, pairs)?;
        pairs.push(pair);
        if cursor.is_at_end()? {
            return Ok(());
        }
    }
}

fn check_count(pair: &Pair, pairs: &[Pair]) -> Result<(), Fault> {
    let name = pair.key.name();
    let is_single = matches!(pair.key, Key::Label | Key::Goto);
    let hint = if pairs.len() == sizes::PAIRS_MOST {
        format!("a rule has at most {} pairs", sizes::PAIRS_MOST)
    } else if is_single && pairs.iter().any(|other| other.key == pair.key) {
        format!("a rule has one {name}")
    } else {
        return Ok(());
    };
    fault(Refusal::PairExtra, pair.span.clone(), hint)
}
