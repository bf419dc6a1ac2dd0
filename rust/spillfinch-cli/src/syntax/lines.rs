//! The lines of a text. A newline directly behind a backslash joins the next physical line, but
//! not behind a comment.

use spillfinch::Refusal;

use super::line::{self, is_skipped, Read};
use super::{Fault, Span};

/// A line with the physical lines that it joins.
#[derive(Clone, Copy, Debug, PartialEq, Eq)]
pub struct Line<'a> {
    /// Of its first physical line, from 1.
    pub number: u32,
    pub lent: &'a [u8],
}

/// A place in one physical line.
#[derive(Clone, Debug, Default, PartialEq, Eq)]
pub struct Place<'a> {
    pub number: u32,
    pub bytes: &'a [u8],
    pub span: Span,
}

pub fn lines(text: &[u8]) -> Vec<Line<'_>> {
    let mut lines = Vec::new();
    let mut number = 1;
    let mut rest = Some(text);
    while let Some(bytes) = rest {
        let end = line_end(bytes);
        let line = Line {
            number,
            lent: &bytes[..end],
        };
        number += line.newlines() as u32 + 1;
        lines.push(line);
        rest = bytes.get(end + 1..);
    }
    lines
}

/// Where the first line of some bytes ends.
fn line_end(bytes: &[u8]) -> usize {
    let physical_end = |from: usize| {
        let newline = bytes[from..].iter().position(|&byte| byte == b'\n');
        newline.map_or(bytes.len(), |length| from + length)
    };
    let mut end = physical_end(0);
    if is_skipped(&bytes[..end]) {
        return end;
    }
    while bytes[..end].ends_with(b"\\") && end + 1 < bytes.len() {
        end = physical_end(end + 1);
    }
    end
}

impl<'a> Line<'a> {
    /// How many newlines it joins.
    pub fn newlines(&self) -> usize {
        self.lent.iter().filter(|&&byte| byte == b'\n').count()
    }

    /// Its bytes without the joins, and where each stands in the line as it is lent.
    fn bytes(&self) -> Vec<(usize, u8)> {
        let is_kept = |&(at, byte): &(usize, u8)| {
            byte != b'\n' && !(byte == b'\\' && self.lent.get(at + 1) == Some(&b'\n'))
        };
        let bytes = self.lent.iter().copied().enumerate();
        bytes.filter(is_kept).collect()
    }

    /// Its bytes without the joins.
    pub fn joined(&self) -> Vec<u8> {
        self.bytes().into_iter().map(|(_, byte)| byte).collect()
    }

    /// Nothing follows its last backslash.
    fn is_open(&self) -> bool {
        self.lent.ends_with(b"\\") && (self.newlines() > 0 || !is_skipped(self.lent))
    }

    pub fn read(&self) -> Read {
        let joined = self.joined();
        if !self.is_open() {
            return line::read_line(&joined);
        }
        let fault = Fault {
            refusal: Refusal::LineOpen,
            span: joined.len() - 1..joined.len(),
            hint: Some(String::from("no line follows that it could join")),
        };
        Read {
            pairs: Vec::new(),
            fault: Some(fault),
        }
    }

    /// A place in its joined bytes, in the physical line where it begins; all of the first one
    /// for no place.
    pub fn place(&self, span: Option<&Span>) -> Place<'a> {
        let bytes = self.bytes();
        let place_of = |at: usize| bytes.get(at).map_or(self.lent.len(), |(place, _)| *place);
        let start = span.map_or(0, |span| place_of(span.start));
        let before = &self.lent[..start];
        let begin = before.iter().rposition(|&byte| byte == b'\n');
        let begin = begin.map_or(0, |newline| newline + 1);
        let joins = before.iter().filter(|&&byte| byte == b'\n').count();
        let physical = self.lent[begin..].split(|&byte| byte == b'\n').next();
        let physical = physical.unwrap_or_default();
        let end = match span {
            None => physical.len(),
            Some(span) if span.end > span.start => {
                (place_of(span.end - 1) + 1 - begin).min(physical.len())
            }
            Some(_) => start - begin,
        };
        Place {
            number: self.number + joins as u32,
            bytes: physical,
            span: start - begin..end,
        }
    }
}
