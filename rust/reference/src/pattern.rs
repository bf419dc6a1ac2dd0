//! Patterns, the values of `==` and `!=`.

use crate::bytes;

#[derive(Clone, Debug, PartialEq, Eq)]
pub struct Pattern {
    alternatives: Vec<Vec<Piece>>,
    ends_in_whitespace: bool,
}

#[derive(Clone, Debug, PartialEq, Eq)]
enum Piece {
    AnyBytes,
    AnyByte,
    Byte(u8),
    Set(Set),
}

#[derive(Clone, Debug, PartialEq, Eq)]
struct Set {
    opposite: bool,
    /// First and last byte of each; a single member is a range of one byte.
    ranges: Vec<(u8, u8)>,
}

impl Pattern {
    /// The pattern of a value, or `None` if a set is not closed or a range falls.
    pub fn read(value: &[u8]) -> Option<Pattern> {
        let alternatives = value
            .split(|&byte| byte == b'|')
            .map(read_alternative)
            .collect::<Option<_>>()?;
        Some(Pattern {
            alternatives,
            ends_in_whitespace: bytes::ends_in_whitespace(value),
        })
    }

    pub fn matches(&self, text: &[u8]) -> bool {
        self.alternatives
            .iter()
            .any(|pieces| alternative_matches(pieces, text))
    }

    /// As `matches`, without the attribute's trailing whitespace unless the pattern has some.
    pub fn matches_attribute(&self, attribute: &[u8]) -> bool {
        if self.ends_in_whitespace {
            self.matches(attribute)
        } else {
            self.matches(bytes::without_trailing_whitespace(attribute))
        }
    }
}

fn read_alternative(mut rest: &[u8]) -> Option<Vec<Piece>> {
    let mut pieces = Vec::new();
    while let Some((&byte, after)) = rest.split_first() {
        rest = after;
        pieces.push(match byte {
            b'*' => Piece::AnyBytes,
            b'?' => Piece::AnyByte,
            b'[' => {
                let (set, after) = read_set(after)?;
                rest = after;
                Piece::Set(set)
            }
            _ => Piece::Byte(byte),
        });
    }
    Some(pieces)
}

/// Reads a set after its `[`, and gives it with the rest after its `]`.
fn read_set(rest: &[u8]) -> Option<(Set, &[u8])> {
    let (opposite, rest) = match rest.strip_prefix(b"!") {
        Some(after) => (true, after),
        None => (false, rest),
    };
    // The first byte is a member even if it is `]`, so the search starts after it.
    let end = 1 + rest.get(1..)?.iter().position(|&byte| byte == b']')?;
    let ranges = read_ranges(&rest[..end])?;
    Some((Set { opposite, ranges }, &rest[end + 1..]))
}

fn read_ranges(mut members: &[u8]) -> Option<Vec<(u8, u8)>> {
    let mut ranges = Vec::new();
    loop {
        members = match members {
            [] => return Some(ranges),
            [first, b'-', last, rest @ ..] if first <= last => {
                ranges.push((*first, *last));
                rest
            }
            [_, b'-', _, ..] => return None,
            [member, rest @ ..] => {
                ranges.push((*member, *member));
                rest
            }
        }
    }
}

impl Set {
    fn has(&self, byte: u8) -> bool {
        let is_member = self
            .ranges
            .iter()
            .any(|&(first, last)| (first..=last).contains(&byte));
        is_member != self.opposite
    }
}

impl Piece {
    fn matches_byte(&self, byte: u8) -> bool {
        match self {
            Piece::AnyBytes | Piece::AnyByte => true,
            Piece::Byte(written) => *written == byte,
            Piece::Set(set) => set.has(byte),
        }
    }
}

/// Follows all lengths of the text's start that the pieces so far can match.
fn alternative_matches(pieces: &[Piece], text: &[u8]) -> bool {
    let mut reached = vec![false; text.len() + 1];
    reached[0] = true;
    for piece in pieces {
        reached = reached_after(piece, &reached, text);
    }
    reached[text.len()]
}

fn reached_after(piece: &Piece, reached: &[bool], text: &[u8]) -> Vec<bool> {
    let mut next = vec![false; reached.len()];
    if *piece == Piece::AnyBytes {
        next[0] = reached[0];
        for length in 1..reached.len() {
            next[length] = reached[length] || next[length - 1];
        }
    } else {
        for (length, &byte) in text.iter().enumerate() {
            next[length + 1] = reached[length] && piece.matches_byte(byte);
        }
    }
    next
}
