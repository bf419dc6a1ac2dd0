//! Match pairs that hold of given values, as a rule has them.

use spillfinch::sizes;

use super::escape;
use super::key::{Argument, Key};

/// Why a pair cannot be written for a value.
pub type Unwritable = &'static str;

/// `KEY{argument}=="value"`, which holds of this very value.
pub fn pair(key: Key, argument: &[u8], value: &[u8]) -> Result<Vec<u8>, Unwritable> {
    let value = match key {
        // These keys do not see whitespace at the end of an attribute.
        Key::Attr | Key::Attrs => without_whitespace_behind(value),
        _ => value,
    };
    let mut pair = key.name().as_bytes().to_vec();
    if key.argument() == Argument::Name {
        if argument.contains(&b'}') || argument.contains(&b'\n') {
            return Err("its name holds a `}` or a newline");
        }
        pair.push(b'{');
        pair.extend_from_slice(argument);
        pair.push(b'}');
    }
    pair.extend_from_slice(b"==");
    pair.extend_from_slice(&escape::written(&pattern(value)?));
    Ok(pair)
}

fn without_whitespace_behind(mut value: &[u8]) -> &[u8] {
    while let [rest @ .., 9..=13 | b' '] = value {
        value = rest;
    }
    value
}

/// The pattern that matches this value alone.
fn pattern(value: &[u8]) -> Result<Vec<u8>, Unwritable> {
    let mut pattern = Vec::with_capacity(value.len());
    for &byte in value {
        match byte {
            b'|' => return Err("it holds a `|`, which separates alternatives"),
            b'*' | b'?' | b'[' => pattern.extend_from_slice(&[b'[', byte, b']']),
            _ => pattern.push(byte),
        }
    }
    if pattern.len() > sizes::VALUE_MOST {
        return Err("it is longer than a value of a rule");
    }
    Ok(pattern)
}
