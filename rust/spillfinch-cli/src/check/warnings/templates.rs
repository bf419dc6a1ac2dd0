//! What templates insert: names that sysfs resolves (E3), given properties (E5), the time at
//! which RUN is substituted (E12), the matched parent (E14).

use recordings::escape::escape;

use super::matches::{given, judge_name, GIVEN};
use super::Found;
use crate::syntax::template::{Piece, What};
use crate::syntax::{Key, Pair, Rule};

pub fn judge(rules: &[Rule], place: usize, found: &mut Found) {
    let rule = &rules[place];
    for pair in &rule.pairs {
        for piece in pair.pieces() {
            let span = pair.value.place(&piece.span);
            match piece.what {
                What::Attr => judge_name(rule, piece.name, &span, found),
                What::Env if GIVEN.contains(&piece.name) => {
                    found.add(5, rule, &span, given(piece.name));
                }
                What::Env | What::Result if pair.key == Key::Run => {
                    judge_later(rule, &rules[place + 1..], pair, &piece, found);
                }
                _ => {}
            }
            judge_parent(rules, place, pair, &piece, found);
        }
    }
}

/// A property of a program that a later rule assigns again, or an output that one may change.
fn judge_later(rule: &Rule, later: &[Rule], pair: &Pair, piece: &Piece, found: &mut Found) {
    let changes = |pair: &Pair| match piece.what {
        What::Result => pair.key == Key::Program,
        _ => pair.assigns(Key::Env) && pair.argument == piece.name,
    };
    let mut later = later.iter();
    if let Some(other) = later.find(|rule| rule.pairs.iter().any(changes)) {
        let inserted = match piece.what {
            What::Result => String::from("the output"),
            _ => format!("ENV{{{}}}", escape(piece.name)),
        };
        let text = format!(
            "here this is {inserted} behind all rules, line {} among them; \
             udev takes it as it is when this rule runs",
            other.line
        );
        found.add(12, rule, &pair.value.place(&piece.span), text);
    }
}

fn has_parent_keys(rule: &Rule) -> bool {
    rule.pairs.iter().any(|pair| pair.key.is_of_parents())
}

/// A matched parent in a rule that searches none.
fn judge_parent(rules: &[Rule], place: usize, pair: &Pair, piece: &Piece, found: &mut Found) {
    let rule = &rules[place];
    if has_parent_keys(rule) {
        return;
    }
    let is_searched_before = || rules[..place].iter().any(has_parent_keys);
    let text = match piece.what {
        What::Id | What::Driver => {
            "here this is empty, as the rule has no parent keys; \
             udev inserts that of the last rule before it that had some"
        }
        What::Attr if is_searched_before() => {
            "here only the event device is asked, as the rule has no parent keys; \
             udev asks the parent of the last rule before it that had some too"
        }
        _ => return,
    };
    found.add_in(14, rule, pair, &piece.span, text);
}
