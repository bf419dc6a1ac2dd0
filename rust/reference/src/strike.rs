//! Striking the faulty lines of a text, so that what is left is accepted.

use crate::lines::{lines, Line};
use crate::refusal::Fault;
use crate::rules::{goto_of, label_of, read_line, Pair};
use crate::sizes;

#[derive(Clone, Debug, PartialEq, Eq)]
pub struct Struck {
    pub text: Vec<u8>,
    /// In ascending order of their lines.
    pub strikes: Vec<Strike>,
}

#[derive(Clone, Copy, Debug, PartialEq, Eq)]
pub struct Strike {
    /// The number of the line's first physical line.
    pub line: u32,
    pub fault: Fault,
}

/// A line, and whether and why it is struck.
struct Judged {
    line: Line,
    /// None if the line is faulty or skipped.
    pairs: Vec<Pair>,
    fault: Option<Fault>,
}

/// The text without its faulty lines, the rules too many and the jumps to nowhere.
pub fn strike(text: &[u8]) -> Struck {
    let mut lines: Vec<Judged> = lines(text).into_iter().map(judge).collect();
    strike_rules_too_many(&mut lines);
    strike_jumps_to_nowhere(&mut lines);
    Struck {
        text: kept_text(text, &lines),
        strikes: lines
            .iter()
            .filter_map(|judged| {
                Some(Strike {
                    line: judged.line.number,
                    fault: judged.fault?,
                })
            })
            .collect(),
    }
}

fn judge(line: Line) -> Judged {
    let (pairs, fault) = match read_line(&line) {
        Ok(pairs) => (pairs.unwrap_or_default(), None),
        Err(fault) => (Vec::new(), Some(fault)),
    };
    Judged { line, pairs, fault }
}

impl Judged {
    fn is_kept_rule(&self) -> bool {
        self.fault.is_none() && !self.pairs.is_empty()
    }
}

fn strike_rules_too_many(lines: &mut [Judged]) {
    let kept_rules = lines.iter_mut().filter(|judged| judged.is_kept_rule());
    for judged in kept_rules.skip(sizes::RULES) {
        judged.fault = Some(Fault::RuleCount);
    }
}

/// From the last line on, so that the lines after a GOTO are settled when it is judged.
fn strike_jumps_to_nowhere(lines: &mut [Judged]) {
    let mut later_labels: Vec<Vec<u8>> = Vec::new();
    let kept_rules = lines.iter_mut().filter(|judged| judged.is_kept_rule());
    for judged in kept_rules.rev() {
        let is_answered = |goto: &[u8]| later_labels.iter().any(|label| label == goto);
        if goto_of(&judged.pairs).is_some_and(|goto| !is_answered(goto)) {
            judged.fault = Some(Fault::Jump);
        } else {
            later_labels.extend(label_of(&judged.pairs).map(<[u8]>::to_vec));
        }
    }
}

/// Of a struck line only the newlines stay.
fn kept_text(text: &[u8], lines: &[Judged]) -> Vec<u8> {
    let kept = |judged: &Judged| {
        let line = &text[judged.line.span.clone()];
        match judged.fault {
            None => line.to_vec(),
            Some(_) => line.iter().copied().filter(|&b| b == b'\n').collect(),
        }
    };
    // A newline stands between two lines.
    lines.iter().map(kept).collect::<Vec<_>>().join(&b'\n')
}
