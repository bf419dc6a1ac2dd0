//! Damage to texts and records.

use super::rng::Rng;

/// Damages the bytes in one to three ways.
pub fn damage(rng: &mut Rng, bytes: &mut Vec<u8>) {
    for _ in 0..rng.between(1, 3) {
        damage_once(rng, bytes);
    }
}

fn damage_once(rng: &mut Rng, bytes: &mut Vec<u8>) {
    if bytes.is_empty() {
        bytes.push(rng.byte());
        return;
    }
    let at = rng.below(bytes.len());
    match rng.below(8) {
        0 | 1 => bytes[at] ^= 1 << rng.below(8),
        2 => flip_header_bit(rng, bytes),
        3 => bytes.truncate(at),
        4 => bytes.insert(at, rng.byte()),
        5 => duplicate_span(rng, bytes),
        6 => {
            bytes.remove(at);
        }
        _ => bytes[at] = rng.byte(),
    }
}

fn flip_header_bit(rng: &mut Rng, bytes: &mut [u8]) {
    let at = rng.below(bytes.len().min(13));
    bytes[at] ^= 1 << rng.below(8);
}

fn duplicate_span(rng: &mut Rng, bytes: &mut Vec<u8>) {
    let start = rng.below(bytes.len());
    let end = rng.between(start, bytes.len().min(start + 40));
    let span = bytes[start..end].to_vec();
    bytes.splice(end..end, span);
}

/// Damages the count, which should be at most that, a length or the end of a set.
pub fn damage_layout(rng: &mut Rng, set: &mut Vec<u8>, most: usize) {
    match rng.below(6) {
        0 => set[0] = set[0].wrapping_add(1),
        1 => set[0] = set[0].wrapping_sub(1),
        2 => set[0] = rng.pick(&[most as u8 + 1, 255]),
        3 => set.push(rng.pick(&[0, b'x'])),
        4 => {
            set.pop();
        }
        _ => {
            let at = rng.below(set.len().min(4));
            set[at] ^= 1 << rng.below(8);
        }
    }
}

/// Puts bytes that mean something in a rule at some places of a text.
pub fn damage_text(rng: &mut Rng, text: &mut Vec<u8>) {
    const MEANINGFUL: &[u8] = b"\"\"\\,{}$%[]|-!+:= \t\n#\r\0AZazeexn\'09";
    if rng.percent(30) {
        damage(rng, text);
        return;
    }
    for _ in 0..rng.between(1, 2) {
        let byte = rng.pick(MEANINGFUL);
        let at = rng.between(0, text.len());
        match rng.below(10) {
            0..=2 if at < text.len() => text[at] = byte,
            3..=5 if at < text.len() => {
                text.remove(at);
            }
            6 => {
                text.splice(at..at, *b"\\\n");
            }
            7 => text.push(b'\\'),
            _ => text.insert(at, byte),
        }
    }
}

pub fn random_bytes(rng: &mut Rng, limit: usize) -> Vec<u8> {
    (0..rng.below(limit)).map(|_| rng.byte()).collect()
}
