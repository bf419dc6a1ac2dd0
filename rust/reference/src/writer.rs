//! Writing the rules of an accepted text back.

use crate::rules::{Pair, Rule};

/// The rules, each on a line of its own, with nothing between the parts.
pub fn write(rules: &[Rule]) -> Vec<u8> {
    rules.iter().flat_map(written_rule).collect()
}

fn written_rule(rule: &Rule) -> Vec<u8> {
    let mut line = written_pairs(&rule.pairs);
    line.push(b'\n');
    line
}

/// The pairs of a rule, without the newline after it.
pub fn written_pairs(pairs: &[Pair]) -> Vec<u8> {
    let pairs: Vec<Vec<u8>> = pairs.iter().map(written_pair).collect();
    pairs.join(&b',')
}

fn written_pair(pair: &Pair) -> Vec<u8> {
    let mut written = pair.key.name().as_bytes().to_vec();
    if let Some(argument) = &pair.argument {
        written.push(b'{');
        written.extend_from_slice(argument);
        written.push(b'}');
    }
    written.extend_from_slice(pair.operator.symbol().as_bytes());
    written.extend(written_value(&pair.value));
    written
}

fn written_value(value: &[u8]) -> Vec<u8> {
    if value.contains(&b'\n') || value.ends_with(b"\\") {
        in_marks(b"e\"", value, escaped)
    } else {
        in_marks(b"\"", value, quoted)
    }
}

fn in_marks(opening: &[u8], value: &[u8], write_byte: fn(u8) -> Vec<u8>) -> Vec<u8> {
    let mut written = opening.to_vec();
    written.extend(value.iter().flat_map(|&byte| write_byte(byte)));
    written.push(b'"');
    written
}

/// A byte behind `"`.
fn quoted(byte: u8) -> Vec<u8> {
    match byte {
        b'"' => b"\\\"".to_vec(),
        _ => vec![byte],
    }
}

/// A byte behind `e"`.
fn escaped(byte: u8) -> Vec<u8> {
    match byte {
        b'\n' => b"\\n".to_vec(),
        b'\\' => b"\\\\".to_vec(),
        b'"' => b"\\\"".to_vec(),
        _ => vec![byte],
    }
}
