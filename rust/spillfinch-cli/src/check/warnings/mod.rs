//! Where an accepted rules text runs otherwise under the real daemon, as far as the text alone
//! shows it. `docs/DAEMON.md` has the table that the numbers come from.

mod links;
mod matches;
mod order;
mod programs;
mod templates;
mod values;

use super::{Remark, Subject};
use crate::syntax::{Pair, Rule, Span};

/// The differences that are warned of.
pub const NUMBERS: [u8; 21] = [
    1, 2, 3, 4, 5, 6, 7, 8, 9, 10, 11, 12, 13, 14, 15, 16, 17, 19, 22, 23, 24,
];

/// The warnings about the rules of an accepted text.
pub fn of(rules: &[Rule]) -> Vec<Remark> {
    let mut found = Found::default();
    for (place, rule) in rules.iter().enumerate() {
        order::judge(rule, &mut found);
        templates::judge(rules, place, &mut found);
        programs::judge(rules, place, &mut found);
        for pair in &rule.pairs {
            matches::judge(rule, pair, &mut found);
            values::judge(rule, pair, &mut found);
            links::judge(rule, pair, &mut found);
        }
    }
    values::judge_group(rules, &mut found);
    found.remarks
}

#[derive(Default)]
struct Found {
    remarks: Vec<Remark>,
}

impl Found {
    /// A warning at a place of a rule: what happens here, and what the daemon does.
    fn add(&mut self, number: u8, rule: &Rule, span: &Span, text: impl Into<String>) {
        debug_assert!(NUMBERS.contains(&number));
        self.remarks.push(Remark {
            subject: Subject::Warning(number),
            line: rule.line,
            span: Some(span.clone()),
            text: text.into(),
            hint: None,
        });
    }

    /// A warning about a part of the value of a pair.
    fn add_in(&mut self, number: u8, rule: &Rule, pair: &Pair, part: &Span, text: &str) {
        self.add(number, rule, &pair.value.place(part), text);
    }
}
