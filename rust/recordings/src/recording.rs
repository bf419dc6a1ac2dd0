//! Recordings of devices, as `umockdev-record` and `udevadm info --export-db` write them.
//!
//! Both are blocks of lines, a letter and a colon first. A block begins with its path, `P:`.

use crate::escape::{escape, hexadecimal};
use crate::form::FormError;
use crate::packed::Entry;

/// What a recording says of one device.
#[derive(Clone, Debug, Default, PartialEq, Eq)]
pub struct Block {
    pub path: Vec<u8>,
    /// `E:`
    pub properties: Vec<Entry>,
    /// `A:`, and `H:` in hexadecimal digits.
    pub attributes: Vec<Entry>,
    /// `L:` with a target: symbolic links beside the attributes.
    pub symbolic_links: Vec<Entry>,
    /// `S:`, the links of an earlier run of udev.
    pub links: Vec<Vec<u8>>,
    /// `U:`, the subsystem.
    pub subsystem: Option<Vec<u8>>,
    /// `V:`, the driver.
    pub driver: Option<Vec<u8>>,
    /// `D:`, the numbers of the node.
    pub numbers: Option<Vec<u8>>,
    /// The beginnings of lines that are not known here.
    pub unknown: Vec<Vec<u8>>,
}

/// Whether a file begins as a recording does.
pub fn is_recording(file: &[u8]) -> bool {
    let start = file.iter().position(|byte| !byte.is_ascii_whitespace());
    start.is_some_and(|start| file[start..].starts_with(b"P: "))
}

/// The blocks of a recording.
pub fn read_recording(file: &[u8]) -> Result<Vec<Block>, FormError> {
    let mut blocks: Vec<Block> = Vec::new();
    let mut last = 1;
    for (line, number) in file.split(|&byte| byte == b'\n').zip(1..) {
        last = number;
        if line.is_empty() {
            continue;
        }
        take_line(&mut blocks, line).map_err(|message| FormError {
            line: number,
            message,
        })?;
    }
    if blocks.is_empty() {
        let message = String::from("no device, which a line `P: PATH` would begin");
        return Err(FormError {
            line: last,
            message,
        });
    }
    Ok(blocks)
}

fn take_line(blocks: &mut Vec<Block>, line: &[u8]) -> Result<(), String> {
    let [letter @ b'A'..=b'Z', b':', rest @ ..] = line else {
        return Err(String::from(
            "a line of a recording begins with a letter and a colon",
        ));
    };
    let rest = rest.strip_prefix(b" ").unwrap_or(rest);
    if *letter == b'P' {
        blocks.push(Block {
            path: rest.to_vec(),
            ..Block::default()
        });
        return Ok(());
    }
    let letter = char::from(*letter);
    let Some(block) = blocks.last_mut() else {
        return Err(format!("`{letter}:` comes behind the `P:` of its device"));
    };
    block.take(letter, rest)
}

impl Block {
    fn take(&mut self, letter: char, rest: &[u8]) -> Result<(), String> {
        match letter {
            'E' => self.properties.push(entry(letter, rest)?),
            'A' => {
                let Entry { name, value } = entry(letter, rest)?;
                let value = without_escapes(&value);
                self.attributes.push(Entry { name, value });
            }
            'H' => {
                let Entry { name, value } = entry(letter, rest)?;
                let value = of_hexadecimal(&value)?;
                self.attributes.push(Entry { name, value });
            }
            // The other tool gives the priority of links here.
            'L' if rest.contains(&b'=') => self.symbolic_links.push(entry(letter, rest)?),
            'S' => self.links.push(rest.to_vec()),
            'U' => self.subsystem = Some(rest.to_vec()),
            'V' => self.driver = Some(rest.to_vec()),
            'D' => {
                let numbers = rest.strip_prefix(b"c ").or(rest.strip_prefix(b"b "));
                self.numbers = Some(numbers.unwrap_or(rest).to_vec());
            }
            // These say again what the path and the properties say, or what no record holds.
            'B' | 'I' | 'J' | 'L' | 'M' | 'N' | 'Q' | 'R' | 'T' => {}
            _ => self.unknown.push(format!("{letter}:").into_bytes()),
        }
        Ok(())
    }
}

fn entry(letter: char, rest: &[u8]) -> Result<Entry, String> {
    match rest.iter().position(|&byte| byte == b'=') {
        Some(equals) => Ok(Entry::new(&rest[..equals], &rest[equals + 1..])),
        None => Err(format!("`{letter}:` takes name=value")),
    }
}

/// The value of an attribute as `umockdev-record` escapes it: letters as in C, digits octal, and
/// any other byte behind a backslash for itself.
fn without_escapes(written: &[u8]) -> Vec<u8> {
    let mut value = Vec::with_capacity(written.len());
    let mut rest = written;
    while let [first, after @ ..] = rest {
        rest = after;
        let (b'\\', [escaped, after @ ..]) = (first, after) else {
            value.push(*first);
            continue;
        };
        rest = after;
        match escaped {
            b'0'..=b'7' => {
                let digits = 1 + rest
                    .iter()
                    .take(2)
                    .take_while(|byte| matches!(byte, b'0'..=b'7'))
                    .count();
                let (behind, after) = rest.split_at(digits - 1);
                let number = behind
                    .iter()
                    .fold(u32::from(escaped - b'0'), |number, digit| {
                        8 * number + u32::from(digit - b'0')
                    });
                value.push(number as u8);
                rest = after;
            }
            b'b' => value.push(8),
            b't' => value.push(b'\t'),
            b'n' => value.push(b'\n'),
            b'v' => value.push(11),
            b'f' => value.push(12),
            b'r' => value.push(b'\r'),
            other => value.push(*other),
        }
    }
    value
}

fn of_hexadecimal(digits: &[u8]) -> Result<Vec<u8>, String> {
    let pairs = digits.chunks(2).map(|pair| match pair {
        [high, low] => hexadecimal(*high, *low),
        _ => None,
    });
    pairs.collect::<Option<_>>().ok_or_else(|| {
        let digits = escape(&digits[..digits.len().min(16)]);
        format!("`H:` takes pairs of hexadecimal digits, not `{digits}`")
    })
}
