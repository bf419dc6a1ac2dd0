//! Reading rules for what is said of them: places in a line, hints, warnings.
//!
//! Nothing is accepted or refused here. The engine does that; what is read here is shown only
//! where it agrees with the engine.

pub mod content;
mod cursor;
mod escape;
mod hints;
pub mod key;
pub mod line;
pub mod lines;
pub mod names;
pub mod pattern;
pub mod quote;
pub mod template;

use std::ops::Range;

use spillfinch::Refusal;

pub use key::{Key, Operator};
pub use line::{Pair, Value};
pub use lines::{lines, Line, Place};

/// A place in a line without its joins, in bytes.
pub type Span = Range<usize>;

/// What is wrong with a line: the refusal, where, and what to do about it where that is sure.
#[derive(Clone, Debug, PartialEq, Eq)]
pub struct Fault {
    pub refusal: Refusal,
    pub span: Span,
    pub hint: Option<String>,
}

/// A line that is a rule, with those of its pairs that could be read.
#[derive(Clone, Debug)]
pub struct Rule {
    pub line: u32,
    pub pairs: Vec<Pair>,
}

/// Space or tab.
fn is_blank(byte: &u8) -> bool {
    matches!(byte, b' ' | b'\t')
}

/// The rules of a text; what is behind a fault of a line is not read.
pub fn rules(text: &[u8]) -> Vec<Rule> {
    let rule = |line: Line| Rule {
        line: line.number,
        pairs: line.read().pairs,
    };
    let rules = lines(text).into_iter().map(rule);
    rules.filter(|rule| !rule.pairs.is_empty()).collect()
}

/// The words of a list that are spelt most like a word, if any are much like it.
pub fn alike<'a>(word: &str, words: impl IntoIterator<Item = &'a str>) -> Vec<&'a str> {
    let allowed = match word.len() {
        0..=2 => return Vec::new(),
        3..=4 => 1,
        _ => 2,
    };
    let by_distance: Vec<_> = words
        .into_iter()
        .map(|other| (strsim::osa_distance(word, other), other))
        .collect();
    let least = by_distance.iter().map(|(distance, _)| *distance).min();
    by_distance
        .into_iter()
        .filter(|(distance, _)| Some(*distance) == least && *distance <= allowed)
        .map(|(_, other)| other)
        .collect()
}

/// `did you mean A or B?` for the words of a list that are most like a word.
pub fn did_you_mean<'a>(word: &str, words: impl IntoIterator<Item = &'a str>) -> Option<String> {
    let alike = alike(word, words);
    (!alike.is_empty()).then(|| format!("did you mean {}?", alike.join(" or ")))
}

/// `A, B or C`.
pub fn either(words: &[&str]) -> String {
    match words {
        [] => String::new(),
        [word] => (*word).to_string(),
        [words @ .., last] => format!("{} or {last}", words.join(", ")),
    }
}
