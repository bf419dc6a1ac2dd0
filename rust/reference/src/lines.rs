//! The lines of a rules text, joined where they are continued.

use std::iter::Peekable;
use std::ops::Range;

use crate::bytes::is_blank;

/// A physical line, or several that are read as one.
#[derive(Clone, Debug, PartialEq, Eq)]
pub struct Line {
    /// The number of the first physical line.
    pub number: u32,
    pub bytes: Vec<u8>,
    /// Where it stands in the text, without the newline at its end.
    pub span: Range<usize>,
    /// Whether the text ends where the line is to be continued.
    pub is_open: bool,
}

pub fn lines(text: &[u8]) -> Vec<Line> {
    let mut physical = physical_lines(text).peekable();
    let mut lines = Vec::new();
    while let Some(first) = physical.next() {
        lines.push(line_from(first, &mut physical));
    }
    lines
}

struct PhysicalLine<'a> {
    number: u32,
    bytes: &'a [u8],
    start: usize,
}

impl PhysicalLine<'_> {
    fn end(&self) -> usize {
        self.start + self.bytes.len()
    }
}

fn physical_lines(text: &[u8]) -> impl Iterator<Item = PhysicalLine<'_>> {
    let mut next_start = 0;
    text.split(|&byte| byte == b'\n')
        .zip(1..)
        .map(move |(bytes, number)| {
            let start = next_start;
            next_start += bytes.len() + 1;
            PhysicalLine {
                number,
                bytes,
                start,
            }
        })
}

fn line_from<'a>(
    first: PhysicalLine<'a>,
    rest: &mut Peekable<impl Iterator<Item = PhysicalLine<'a>>>,
) -> Line {
    let mut line = Line {
        number: first.number,
        bytes: first.bytes.to_vec(),
        span: first.start..first.end(),
        is_open: false,
    };
    if is_skipped(first.bytes) {
        return line;
    }
    let mut last = first.bytes;
    while last.ends_with(b"\\") {
        line.bytes.pop();
        let Some(next) = rest.next() else {
            line.is_open = true;
            return line;
        };
        line.bytes.extend_from_slice(next.bytes);
        line.span.end = next.end();
        last = next.bytes;
        // Behind the last newline of the text stands nothing that could be joined.
        line.is_open = last.is_empty() && rest.peek().is_none();
    }
    line
}

/// Whether the line is blank or a comment.
pub fn is_skipped(line: &[u8]) -> bool {
    let first = line.iter().find(|&&byte| !is_blank(byte));
    matches!(first, None | Some(b'#'))
}
