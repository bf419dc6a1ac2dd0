//! What to do about a fault, where that is sure.

use super::key::{Key, Operator, UNREAD};
use super::{did_you_mean, either, is_blank};

const BYTE_ORDER_MARK: &[u8] = b"\xef\xbb\xbf";

pub fn brace_behind_blanks(rest: &[u8]) -> bool {
    let next = rest.iter().find(|byte| !is_blank(byte));
    rest.first().is_some_and(is_blank) && next == Some(&b'{')
}

/// Of an unknown or missing key at a place of a line.
pub fn key(line: &[u8], place: usize) -> Option<String> {
    let rest = &line[place..];
    let hint = match rest {
        [] => "no pair stands behind this comma",
        [b',', ..] if place == 0 => "a rule does not begin with a comma",
        [b',', ..] => "no pair stands between two commas",
        [b'#', ..] => "a comment stands on a line of its own",
        [b'\r', ..] => "the line ends in a carriage return; lines end in a newline alone",
        _ if rest.starts_with(BYTE_ORDER_MARK) => "the file begins with a byte order mark",
        _ => return word_hint(rest),
    };
    Some(String::from(hint))
}

fn word_hint(rest: &[u8]) -> Option<String> {
    let letters = rest.iter().take_while(|byte| byte.is_ascii_alphabetic());
    let word = String::from_utf8_lossy(&rest[..letters.count()]);
    let capitals = word.to_ascii_uppercase();
    if UNREAD.contains(&word.as_ref()) {
        return Some(format!("udev's {word} is not read here"));
    }
    if Key::named(capitals.as_bytes()).is_some() {
        return Some(format!("keys are written in capitals: {capitals}"));
    }
    did_you_mean(&capitals, Key::names())
}

/// Of an operator that is missing or not the key's.
pub fn operator(key: Key) -> String {
    let symbols: Vec<&str> = key
        .operators()
        .iter()
        .copied()
        .map(Operator::symbol)
        .collect();
    format!("{} takes {}", key.name(), either(&symbols))
}

/// Of a value that no quotation mark opens.
pub fn unopened(rest: &[u8]) -> Option<String> {
    let hint = match rest {
        [b'\'', ..] => "a value stands in double quotation marks",
        [b'e', b' ' | b'\t', ..] => "the mark stands directly behind the e",
        [b'E', b'"', ..] => "the e before a mark is a small letter",
        [b'=', ..] => "an equals sign too many",
        [] => "a value in quotation marks is missing",
        _ => "a value stands in quotation marks",
    };
    Some(String::from(hint))
}

/// Of a value that begins in `rest` and that no quotation mark closes.
pub fn unclosed(rest: &[u8]) -> Option<String> {
    let hint = match rest.strip_suffix(b"\r").unwrap_or(rest) {
        [b'"', .., b'\\', b'"'] => {
            "a mark behind a backslash is a part of the value, so none closes it"
        }
        _ => "no quotation mark closes this value",
    };
    Some(String::from(hint))
}

/// Of what stands behind a pair in place of a comma.
pub fn behind_pair(rest: &[u8]) -> Option<String> {
    let hint = match rest {
        [b'A'..=b'Z', ..] => "a comma is missing here",
        [b'#', ..] => "a comment stands on a line of its own",
        [b';', ..] => "pairs are separated by a comma",
        [b'\\', b' ' | b'\t', ..] => {
            "a backslash joins the next line only directly before the newline"
        }
        [b'\\', b'\r'] | [b'\r', ..] => {
            "the line ends in a carriage return; lines end in a newline alone"
        }
        [b'"', ..] => "write \\\" for a mark inside a value",
        _ => return None,
    };
    Some(String::from(hint))
}
