//! The output of programs (E24): what a failure leaves of it, its bytes, and where it is inserted.

use super::Found;
use crate::syntax::template::What;
use crate::syntax::{Key, Operator, Pair, Rule, Span};

/// The bytes that the daemon leaves in an output, beside letters and digits.
const KEPT: &[u8] = b"#+-.:=@_/ $%?,";
/// Bytes of a pattern that need not stand for themselves.
const SIGNS: &[u8] = b"*[]|!\\";

pub fn judge(rules: &[Rule], place: usize, found: &mut Found) {
    let rule = &rules[place];
    for pair in &rule.pairs {
        if pair.key == Key::Result {
            judge_failure(rules, place, &pair.span, found);
            judge_bytes(rule, pair, found);
        }
        let pieces = pair.pieces();
        for piece in pieces.iter().filter(|piece| piece.what == What::Result) {
            let span = pair.value.place(&piece.span);
            match pair.key {
                Key::Program => {
                    let text = "here this is the output that is stored by then; \
                                udev has none while it asks a program";
                    found.add(24, rule, &span, text);
                    continue;
                }
                Key::Symlink => {
                    let text = "here whitespace of the output becomes `_`; \
                                in udev it separates links";
                    found.add(24, rule, &span, text);
                }
                _ => {}
            }
            judge_failure(rules, place, &span, found);
        }
    }
}

/// An output that may be that of a program before the last one, which failed.
fn judge_failure(rules: &[Rule], place: usize, span: &Span, found: &mut Found) {
    let is_program = |pair: &&Pair| pair.key == Key::Program;
    let own: Vec<&Pair> = rules[place].pairs.iter().filter(is_program).collect();
    let earlier = rules[..place].iter().flat_map(|rule| &rule.pairs);
    let before = earlier.filter(is_program).count();
    let may_be_older = match own.last() {
        Some(last) => last.operator == Operator::Unequal && before + own.len() > 1,
        None => before > 1,
    };
    if may_be_older {
        let text = "here a program that fails leaves the output that was stored before; \
                    udev has none then";
        found.add(24, &rules[place], span, text);
    }
}

/// Bytes that no output of the daemon has.
fn judge_bytes(rule: &Rule, pair: &Pair, found: &mut Found) {
    let is_replaced = |byte: &u8| {
        byte.is_ascii()
            && !byte.is_ascii_alphanumeric()
            && !KEPT.contains(byte)
            && !SIGNS.contains(byte)
    };
    if let Some(place) = pair.value.bytes.iter().position(is_replaced) {
        let text = "here the output keeps this byte; \
                    udev makes it `_`, or a space if it is whitespace";
        found.add_in(24, rule, pair, &(place..place + 1), text);
    }
}
