//! Generated patterns.

use super::rng::Rng;
use super::vocabulary::{ODD_PATTERNS, VALUES};
use crate::sizes;

/// Longer texts are matched by their start.
const SPELLED_WHOLE: usize = 40;

/// A pattern that the text matches.
pub fn matching(rng: &mut Rng, text: &[u8]) -> Vec<u8> {
    if text.len() > SPELLED_WHOLE {
        return starting(rng, &text[..SPELLED_WHOLE]);
    }
    let pattern = match rng.below(10) {
        0..=3 => spelled(rng, text),
        4 => starred(rng, text),
        5 => starting(rng, text_before_specials(text)),
        6 => starting(rng, text),
        7 => ending(rng, text),
        8 => alternatives(rng, text),
        _ => b"*".to_vec(),
    };
    writable(pattern)
}

fn starting(rng: &mut Rng, start: &[u8]) -> Vec<u8> {
    let mut pattern = spelled(rng, start);
    pattern.push(b'*');
    pattern
}

fn ending(rng: &mut Rng, text: &[u8]) -> Vec<u8> {
    let start = rng.between(0, text.len());
    let mut pattern = spelled(rng, &text[start..]);
    pattern.insert(0, b'*');
    pattern
}

/// A pattern that the text mostly does not match.
pub fn failing(rng: &mut Rng, text: &[u8]) -> Vec<u8> {
    let mut pattern = spelled(rng, &text[..text.len().min(SPELLED_WHOLE)]);
    match rng.below(5) {
        0 => pattern.push(b'x'),
        1 => pattern.insert(0, b'?'),
        2 => pattern = text_before_specials(rng.pick(VALUES)).to_vec(),
        3 => pattern = vec![b'[', b'!', safe_byte(rng), b']'],
        _ => pattern = b"no-such|nothing".to_vec(),
    }
    writable(pattern)
}

/// A pattern without regard to any text; most are well formed.
pub fn odd(rng: &mut Rng) -> Vec<u8> {
    if rng.percent(70) {
        return rng.pick(ODD_PATTERNS).to_vec();
    }
    let mut pattern = Vec::new();
    for _ in 0..rng.between(1, 4) {
        match rng.below(4) {
            0 => pattern.push(rng.pick(b"*?|ab-]!09")),
            1 => pattern.push(safe_byte(rng)),
            _ => add_random_set(rng, &mut pattern),
        }
    }
    pattern
}

fn add_random_set(rng: &mut Rng, pattern: &mut Vec<u8>) {
    pattern.push(b'[');
    for _ in 0..rng.between(1, 6) {
        pattern.push(rng.pick(b"abcdez059----]!^|[*? "));
    }
    pattern.push(b']');
}

/// Each byte as it is or as something that matches it.
fn spelled(rng: &mut Rng, text: &[u8]) -> Vec<u8> {
    let is_plain = rng.percent(50);
    text.iter()
        .flat_map(|&byte| {
            if is_special(byte) || (!is_plain && rng.percent(30)) {
                spelled_byte(rng, byte)
            } else {
                vec![byte]
            }
        })
        .collect()
}

fn spelled_byte(rng: &mut Rng, byte: u8) -> Vec<u8> {
    let before = byte.saturating_sub(1);
    let after = byte.saturating_add(1);
    match rng.below(6) {
        0 if is_safe(byte) => vec![b'[', byte, b']'],
        1 if is_safe(byte) => vec![b'[', b'#', byte, b'-', b']'],
        2 if is_safe(before) && is_safe(after) => vec![b'[', before, b'-', after, b']'],
        3 if is_safe(after) => vec![b'[', b'!', after, b']'],
        4 => b"[!\x7f]".to_vec(),
        _ => b"?".to_vec(),
    }
}

/// The text with `*` for some of its parts.
fn starred(rng: &mut Rng, text: &[u8]) -> Vec<u8> {
    let mut pattern = Vec::new();
    for part in text.chunks(rng.between(1, 4)) {
        if rng.percent(40) {
            pattern.push(b'*');
        } else {
            pattern.extend(spelled(rng, part));
        }
    }
    pattern
}

fn alternatives(rng: &mut Rng, text: &[u8]) -> Vec<u8> {
    let mut alternatives = vec![
        spelled(rng, text),
        text_before_specials(rng.pick(VALUES)).to_vec(),
    ];
    if rng.percent(30) {
        alternatives.push(Vec::new());
    }
    rng.shuffle(&mut alternatives);
    alternatives.join(&b'|')
}

fn text_before_specials(text: &[u8]) -> &[u8] {
    let end = text.iter().position(|&byte| is_special(byte));
    &text[..end.unwrap_or(text.len())]
}

/// Bytes that cannot stand for themselves in a pattern.
fn is_special(byte: u8) -> bool {
    matches!(byte, b'*' | b'?' | b'[' | b'|')
}

/// Bytes that can be the member of a set and the end of a range without further thought.
fn is_safe(byte: u8) -> bool {
    byte.is_ascii_alphanumeric() || matches!(byte, b' ' | b'.' | b'/' | b':' | b'_' | 0x80..)
}

fn safe_byte(rng: &mut Rng) -> u8 {
    rng.pick(b"abcxyz059 ._/:R\xff")
}

/// Keeps the pattern within a value.
fn writable(pattern: Vec<u8>) -> Vec<u8> {
    if pattern.len() > sizes::VALUE {
        return b"*".to_vec();
    }
    pattern
}
