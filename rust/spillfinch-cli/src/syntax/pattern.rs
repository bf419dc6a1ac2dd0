//! Patterns: what is wrong with one, and the questions that warnings ask.

use super::Span;

#[derive(Clone, Copy, Debug, PartialEq, Eq)]
pub enum PatternFault {
    /// No `]` closes the set within its alternative.
    Unclosed {
        /// Whether one would, but for a `|` before it.
        is_split: bool,
    },
    /// The range goes from a higher byte to a lower one.
    Falling,
}

/// The alternatives of a pattern, each with its place.
pub fn alternatives(pattern: &[u8]) -> impl Iterator<Item = (usize, &[u8])> {
    let mut start = 0;
    pattern.split(|&byte| byte == b'|').map(move |alternative| {
        let place = start;
        start += alternative.len() + 1;
        (place, alternative)
    })
}

/// The places of a set: its brackets and what is between them.
pub struct Set {
    pub span: Span,
    pub is_opposite: bool,
    pub members: Span,
}

/// The sets of an alternative, up to one that is not closed.
pub fn sets(alternative: &[u8]) -> (Vec<Set>, Option<usize>) {
    let mut sets = Vec::new();
    let mut place = 0;
    while let Some(open) = find(alternative, place, b'[') {
        let is_opposite = alternative.get(open + 1) == Some(&b'!');
        let first = open + 1 + usize::from(is_opposite);
        // The first member closes nothing.
        let Some(close) = find(alternative, first + 1, b']') else {
            return (sets, Some(open));
        };
        sets.push(Set {
            span: open..close + 1,
            is_opposite,
            members: first..close,
        });
        place = close + 1;
    }
    (sets, None)
}

fn find(bytes: &[u8], from: usize, wanted: u8) -> Option<usize> {
    let rest = bytes.get(from..)?;
    Some(from + rest.iter().position(|&byte| byte == wanted)?)
}

/// The first fault of a pattern and its place.
pub fn fault(pattern: &[u8]) -> Option<(Span, PatternFault)> {
    for (start, alternative) in alternatives(pattern) {
        let (sets, unclosed) = sets(alternative);
        for set in &sets {
            if let Some(place) = falling(&alternative[set.members.clone()]) {
                let range = start + set.members.start + place;
                return Some((range..range + 3, PatternFault::Falling));
            }
        }
        if let Some(open) = unclosed {
            let open = start + open;
            let is_split = start + alternative.len() < pattern.len()
                && find(pattern, open + 2, b']').is_some();
            return Some((open..open + 1, PatternFault::Unclosed { is_split }));
        }
    }
    None
}

/// The place of the first falling range among the members of a set.
fn falling(members: &[u8]) -> Option<usize> {
    let mut place = 0;
    while place < members.len() {
        match members[place..] {
            [from, b'-', to, ..] if from > to => return Some(place),
            [_, b'-', _, ..] => place += 3,
            _ => place += 1,
        }
    }
    None
}

/// Whether a pattern is compared byte by byte.
pub fn is_plain(pattern: &[u8]) -> bool {
    !pattern.iter().any(|byte| b"*?[".contains(byte))
}
