//! Whether a value is what its key and operator ask for.

use super::key::{Key, Operator};
use super::pattern::{self, PatternFault};
use super::{did_you_mean, template, Span};

/// What is wrong with a value, and where in it.
#[derive(Clone, Debug, PartialEq, Eq)]
pub struct ContentFault {
    pub span: Span,
    pub hint: Option<String>,
}

const TAG_MOST: usize = 64;
const DIGITS_MOST: usize = 10;
const PRIORITY: &str = "link_priority=";
const OPTIONS: [&str; 5] = [
    "string_escape=none",
    "string_escape=replace",
    "watch",
    "nowatch",
    PRIORITY,
];

/// Settings of udev that the engine does not read, or how they begin.
const UNREAD_OPTIONS: [&str; 4] = ["db_persist", "dump", "log_level=", "static_node="];

pub fn fault(key: Key, operator: Operator, value: &[u8]) -> Option<ContentFault> {
    if key.takes_template(operator) {
        let template::TemplateFault { span, hint } = template::pieces(value).err()?;
        return Some(ContentFault { span, hint });
    }
    if operator.is_match() {
        return pattern_fault(value);
    }
    match key {
        Key::Tag if value.len() > TAG_MOST => {
            let length = value.len();
            Some(whole(
                value,
                format!("the tag has {length} bytes; {TAG_MOST} are taken"),
            ))
        }
        Key::Label | Key::Goto if value.is_empty() => {
            Some(whole(value, String::from("a label has a name")))
        }
        Key::Options => option_fault(value),
        _ => None,
    }
}

fn whole(value: &[u8], hint: String) -> ContentFault {
    ContentFault {
        span: 0..value.len(),
        hint: Some(hint),
    }
}

fn pattern_fault(value: &[u8]) -> Option<ContentFault> {
    let (span, fault) = pattern::fault(value)?;
    let hint = match fault {
        PatternFault::Falling => "the range falls: its first byte is the higher one",
        PatternFault::Unclosed { is_split: true } => "`|` separates alternatives, in a set too",
        PatternFault::Unclosed { is_split: false } => "no `]` closes this set",
    };
    Some(ContentFault {
        span,
        hint: Some(String::from(hint)),
    })
}

/// The number of a setting of the priority.
pub fn priority(value: &[u8]) -> Option<i32> {
    let number = value.strip_prefix(PRIORITY.as_bytes())?;
    let digits = number.strip_prefix(b"-").unwrap_or(number);
    let is_number = (1..=DIGITS_MOST).contains(&digits.len());
    if !is_number || !digits.iter().all(u8::is_ascii_digit) {
        return None;
    }
    std::str::from_utf8(number).ok()?.parse().ok()
}

fn option_fault(value: &[u8]) -> Option<ContentFault> {
    if OPTIONS[..4].iter().any(|option| option.as_bytes() == value) || priority(value).is_some() {
        return None;
    }
    let written = String::from_utf8_lossy(value);
    let unread = UNREAD_OPTIONS
        .iter()
        .find(|option| written.starts_with(*option));
    let hint = if written.starts_with(PRIORITY) {
        format!(
            "a priority has 1 to {DIGITS_MOST} digits, from {} to {}",
            i32::MIN,
            i32::MAX
        )
    } else if let Some(option) = unread {
        format!("udev's {} is not read here", option.trim_end_matches('='))
    } else {
        let alike = did_you_mean(&written, OPTIONS);
        alike.unwrap_or_else(|| {
            String::from(
                "OPTIONS takes link_priority=N, string_escape=none, string_escape=replace, watch or \
                 nowatch",
            )
        })
    };
    Some(whole(value, hint))
}
