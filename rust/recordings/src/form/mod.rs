//! The text form of records and answer sheets, as `reference/README.md` describes it.

mod device;
mod outcome;
mod sheet;

pub(crate) use device::is_parent;
pub use device::{read_device, write_device};
pub use outcome::{read_outcome, write_outcome};
pub use sheet::{read_sheet, write_sheet};

use std::fmt;
use std::ops::RangeInclusive;

use crate::escape::{escape_for_form, unescape};
use crate::packed::{value_of, Entry};
use crate::sizes;

/// What is wrong with a text form or a recording, and where.
#[derive(Clone, Debug, PartialEq, Eq)]
pub struct FormError {
    pub line: usize,
    pub message: String,
}

impl fmt::Display for FormError {
    fn fmt(&self, f: &mut fmt::Formatter) -> fmt::Result {
        write!(f, "line {}: {}", self.line, self.message)
    }
}

impl std::error::Error for FormError {}

/// What one line gives, or what is wrong with it.
type Taken<T> = Result<T, String>;

/// A line that says something: its word and the text behind it.
struct Line<'a> {
    number: usize,
    word: String,
    text: &'a [u8],
}

fn is_blank(byte: &u8) -> bool {
    matches!(byte, b' ' | b'\t')
}

/// A carriage return at the end of a line is no part of it.
fn trim(mut text: &[u8]) -> &[u8] {
    while let [b' ' | b'\t', rest @ ..] | [rest @ .., b' ' | b'\t' | b'\r'] = text {
        text = rest;
    }
    text
}

fn lines(form: &[u8]) -> impl Iterator<Item = Line<'_>> {
    let numbered = form.split(|&byte| byte == b'\n').zip(1..);
    numbered.filter_map(|(line, number)| {
        let line = trim(line);
        if line.is_empty() || line.starts_with(b"#") {
            return None;
        }
        let end = line.iter().position(is_blank);
        let (word, text) = line.split_at(end.unwrap_or(line.len()));
        Some(Line {
            number,
            word: String::from_utf8_lossy(word).into_owned(),
            text: trim(text),
        })
    })
}

/// Gives each line to `take`; an error gets its line's number.
fn each_line<'a>(
    form: &'a [u8],
    mut take: impl FnMut(&Line<'a>) -> Taken<()>,
) -> Result<(), FormError> {
    for line in lines(form) {
        take(&line).map_err(|message| FormError {
            line: line.number,
            message,
        })?;
    }
    Ok(())
}

impl Line<'_> {
    fn words(&self) -> Vec<&[u8]> {
        let pieces = self.text.split(is_blank);
        pieces.filter(|piece| !piece.is_empty()).collect()
    }

    fn set_once<T>(&self, place: &mut Option<T>, value: T) -> Taken<()> {
        match place.replace(value) {
            None => Ok(()),
            Some(_) => Err(format!("a second `{}`", self.word)),
        }
    }

    fn bytes(&self, lengths: RangeInclusive<usize>) -> Taken<Vec<u8>> {
        bytes_within(&self.word, self.text, lengths)
    }

    /// Adds the line's `name=value`.
    fn add_entry(&self, entries: &mut Vec<Entry>, most: usize) -> Taken<()> {
        let word = &self.word;
        let equals = self.text.iter().position(|&byte| byte == b'=');
        let (name, value) = match equals {
            Some(equals) => (&self.text[..equals], &self.text[equals + 1..]),
            None => return Err(format!("`{word}` takes name=value")),
        };
        let name = bytes_within("name", name, 1..=sizes::NAME_MOST)?;
        let value = bytes_within("value", value, 0..=sizes::VALUE_MOST)?;
        if value_of(entries, &name).is_some() {
            return Err(format!("a second `{word}` of this name"));
        }
        entries.push(Entry { name, value });
        self.at_most(most, entries.len())
    }

    fn add_name(&self, names: &mut Vec<Vec<u8>>, name: Vec<u8>, most: usize) -> Taken<()> {
        if names.contains(&name) {
            return Err(format!("the same `{}` a second time", self.word));
        }
        names.push(name);
        self.at_most(most, names.len())
    }

    fn at_most(&self, most: usize, count: usize) -> Taken<()> {
        if count <= most {
            return Ok(());
        }
        Err(format!("more than {most} lines of `{}`", self.word))
    }
}

fn bytes_within(what: &str, written: &[u8], lengths: RangeInclusive<usize>) -> Taken<Vec<u8>> {
    let text = unescape(written)?;
    if text.contains(&0) {
        return Err(String::from("a record holds no NUL byte"));
    }
    if lengths.contains(&text.len()) {
        return Ok(text);
    }
    let (least, most, length) = (lengths.start(), lengths.end(), text.len());
    Err(format!(
        "the {what} has {length} bytes; it takes {least} to {most}"
    ))
}

/// A decimal number.
pub(crate) fn number<N>(digits: &[u8], range: RangeInclusive<N>) -> Taken<N>
where
    N: std::str::FromStr + PartialOrd + fmt::Display,
{
    let number = std::str::from_utf8(digits)
        .ok()
        .and_then(|digits| digits.parse().ok());
    number
        .filter(|number| range.contains(number))
        .ok_or_else(|| {
            let digits = escape_for_form(digits);
            let (least, most) = (range.start(), range.end());
            format!("`{digits}` is no number from {least} to {most}")
        })
}

fn entry_line(word: &str, entry: &Entry) -> String {
    let name = escape_for_form(&entry.name).replace('=', "\\x3d");
    format!("{word} {name}={}\n", escape_for_form(&entry.value))
}
