//! Links: escaping (E8), removing (E10), bytes and names (E11).

use super::Found;
use crate::syntax::template::What;
use crate::syntax::{Key, Operator, Pair, Rule, Span};

pub fn judge(rule: &Rule, pair: &Pair, found: &mut Found) {
    judge_replaced(rule, pair, found);
    if !pair.assigns(Key::Symlink) {
        return;
    }
    if pair.operator == Operator::Remove {
        let text = "here the link is removed; udev 252 refuses the operator (257 removes it)";
        found.add(10, rule, &pair.span, text);
    }
    judge_bytes(rule, pair, found);
    judge_names(rule, pair, found);
}

/// The setting of string_escape that counts at a pair.
fn is_replaced(rule: &Rule, pair: &Pair) -> bool {
    let before = rule.pairs.iter().take_while(|other| *other != pair);
    let settings = before.filter(|other| other.key == Key::Options);
    let escapes = settings.filter(|other| other.value.bytes.starts_with(b"string_escape="));
    escapes
        .last()
        .is_some_and(|last| last.value.bytes == b"string_escape=replace")
}

fn judge_replaced(rule: &Rule, pair: &Pair, found: &mut Found) {
    let (byte, text) = if pair.assigns(Key::Env) {
        let text = "here `/` stays in the value under string_escape=replace; \
                    udev makes it `_`";
        (b'/', text)
    } else if pair.assigns(Key::Symlink) {
        let text = "here a written blank separates two links; \
                    under string_escape=replace udev makes it `_`, one link";
        (b' ', text)
    } else {
        return;
    };
    let place = pair.value.bytes.iter().position(|other| *other == byte);
    if let Some(place) = place.filter(|_| is_replaced(rule, pair)) {
        found.add_in(8, rule, pair, &(place..place + 1), text);
    }
}

/// Written bytes that the daemon would keep.
fn judge_bytes(rule: &Rule, pair: &Pair, found: &mut Found) {
    for piece in pair.pieces() {
        if piece.what != What::Text {
            continue;
        }
        let is_kept = |at: &usize| piece.name[*at] >= 0x80 || piece.name[*at..].starts_with(b"\\x");
        if let Some(at) = (0..piece.name.len()).find(is_kept) {
            let place = piece.span.start + at;
            let text = "here each such byte of a link becomes `_`; udev keeps UTF-8 and `\\x`";
            found.add_in(11, rule, pair, &(place..place + 1), text);
            return;
        }
    }
}

/// Names that are refused whatever is inserted into them.
fn judge_names(rule: &Rule, pair: &Pair, found: &mut Found) {
    for name in names(pair) {
        if is_refused(&name.shape) {
            let text = "here this link is refused (31) when its rule runs; udev 252 takes it";
            found.add_in(11, rule, pair, &name.span, text);
            return;
        }
    }
}

struct Name {
    span: Span,
    /// The written bytes, with `INSERTED` for what is not known; a device's path begins with a
    /// slash.
    shape: Vec<u8>,
}

/// The names of a value, split at written spaces.
fn names(pair: &Pair) -> Vec<Name> {
    let mut names: Vec<Name> = Vec::new();
    let mut is_open = false;
    let mut add = |byte: u8, span: Span| {
        if byte == b' ' {
            is_open = false;
            return;
        }
        match names.last_mut().filter(|_| is_open) {
            Some(name) => {
                name.span.end = span.end;
                name.shape.push(byte);
            }
            None => names.push(Name {
                span,
                shape: vec![byte],
            }),
        }
        is_open = true;
    };
    for piece in pair.pieces() {
        match piece.what {
            What::Text => {
                for (place, byte) in piece.span.clone().zip(piece.name) {
                    add(*byte, place..place + 1);
                }
            }
            What::Devpath => {
                add(b'/', piece.span.clone());
                add(INSERTED, piece.span.clone());
            }
            _ => add(INSERTED, piece.span.clone()),
        }
    }
    names
}

const INSERTED: u8 = 0;

fn is_refused(shape: &[u8]) -> bool {
    let components: Vec<&[u8]> = shape.split(|&byte| byte == b'/').collect();
    let is_bad = |component: &&[u8]| matches!(*component, b"" | b"." | b"..");
    components.iter().any(is_bad)
}
