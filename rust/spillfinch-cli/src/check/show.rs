//! Remarks as people read them.

use std::ops::Range;
use std::path::Path;

use codespan_reporting::diagnostic::{Diagnostic, Label};
use codespan_reporting::files::{Error, Files};
use codespan_reporting::term::termcolor::{Ansi, NoColor, WriteColor};
use codespan_reporting::term::{self, Chars, Config};

use super::{column, Checked, Remark};
use crate::files::shown;
use crate::syntax::{Place, Span};

/// A line of more bytes is shown in part.
const SHOWN_MOST: usize = 160;
/// How much of it is shown before the place that is meant.
const SHOWN_BEFORE: usize = 60;

/// `path:line: fault 19: text (hint)`
pub fn short(checked: &Checked) -> String {
    let line = |remark: &Remark| {
        let hint = remark.hint.as_ref().map(|hint| format!(" ({hint})"));
        format!(
            "{}{}\n",
            title(&checked.path, remark),
            hint.unwrap_or_default()
        )
    };
    checked.remarks.iter().map(line).collect()
}

/// The same, each with its line below it and the hint at its place.
pub fn long(checked: &Checked, has_colors: bool) -> String {
    let path = shown(&checked.path);
    let remark = |remark: &Remark| {
        let title = title(&checked.path, remark);
        match (remark.line, &remark.hint) {
            (0, Some(hint)) => format!("{title} ({hint})\n\n"),
            (0, None) => format!("{title}\n\n"),
            _ => {
                let excerpt = Excerpt::new(&path, checked, remark);
                format!("{title}\n{}\n", excerpt.draw(remark, has_colors))
            }
        }
    };
    checked.remarks.iter().map(remark).collect()
}

fn title(path: &Path, remark: &Remark) -> String {
    let (path, title, text) = (shown(path), remark.subject.title(), &remark.text);
    match remark.line {
        0 => format!("{path}: {title}: {text}"),
        line => format!("{path}:{line}: {title}: {text}"),
    }
}

/// A physical line, or a part of it, as it is shown; the only line of its file that is drawn.
struct Excerpt<'a> {
    path: &'a str,
    line: u32,
    shown: String,
    /// What is pointed at, in bytes of what is shown.
    place: Span,
    /// Of the place in the line itself, from 1.
    column: usize,
}

impl<'a> Excerpt<'a> {
    fn new(path: &'a str, checked: &Checked, remark: &Remark) -> Excerpt<'a> {
        let place = checked.place(remark).unwrap_or_default();
        let column = column(&place);
        let Place {
            number,
            bytes,
            span,
        } = place;
        let window = window(bytes.len(), &span);
        let cut = |from: usize, to: usize| readable(&bytes[from..to]);
        let end = span.end.clamp(window.start, window.end);
        let mut shown = String::new();
        if window.start > 0 {
            shown += "...";
        }
        shown += &cut(window.start, span.start);
        let start = shown.len();
        shown += &cut(span.start, end);
        let place = start..shown.len();
        shown += &cut(end, window.end);
        if window.end < bytes.len() {
            shown += "...";
        }
        Excerpt {
            path,
            line: number,
            shown,
            place,
            column,
        }
    }

    fn draw(&self, remark: &Remark, has_colors: bool) -> String {
        let label = Label::primary((), self.place.clone());
        let label = match &remark.hint {
            Some(hint) => label.with_message(hint),
            None => label,
        };
        let diagnostic = match remark.subject.is_fault() {
            true => Diagnostic::error(),
            false => Diagnostic::warning(),
        };
        let diagnostic = diagnostic.with_labels(vec![label]);
        match has_colors {
            true => self.emit(Ansi::new(Vec::new()), &diagnostic, Ansi::into_inner),
            false => self.emit(NoColor::new(Vec::new()), &diagnostic, NoColor::into_inner),
        }
    }

    /// What the library draws, without its first line, in whose place the title stands.
    fn emit<W: WriteColor>(
        &self,
        mut writer: W,
        diagnostic: &Diagnostic<()>,
        into_bytes: impl FnOnce(W) -> Vec<u8>,
    ) -> String {
        let config = Config {
            chars: Chars::ascii(),
            ..Config::default()
        };
        term::emit(&mut writer, &config, self, diagnostic).expect("a buffer takes any text");
        let drawn = String::from_utf8_lossy(&into_bytes(writer)).into_owned();
        let (_, below) = drawn.split_once('\n').unwrap_or_default();
        format!("{}\n", below.trim_end())
    }
}

/// The part of a line that is shown.
fn window(length: usize, span: &Span) -> Range<usize> {
    if length <= SHOWN_MOST {
        return 0..length;
    }
    let start = span.start.saturating_sub(SHOWN_BEFORE);
    start..(start + SHOWN_MOST).min(length)
}

/// Bytes that are no readable text, escaped.
fn readable(bytes: &[u8]) -> String {
    let mut text = String::new();
    for chunk in bytes.utf8_chunks() {
        for character in chunk.valid().chars() {
            match character {
                '\t' => text.push(character),
                _ if character.is_control() => text += &format!("\\x{:02x}", character as u32),
                _ => text.push(character),
            }
        }
        for byte in chunk.invalid() {
            text += &format!("\\x{byte:02x}");
        }
    }
    text
}

impl<'a> Files<'a> for Excerpt<'_> {
    type FileId = ();
    type Name = &'a str;
    type Source = &'a str;

    fn name(&'a self, (): ()) -> Result<&'a str, Error> {
        Ok(self.path)
    }

    fn source(&'a self, (): ()) -> Result<&'a str, Error> {
        Ok(&self.shown)
    }

    fn line_index(&'a self, (): (), _: usize) -> Result<usize, Error> {
        Ok(self.line as usize - 1)
    }

    fn column_number(&'a self, (): (), _: usize, _: usize) -> Result<usize, Error> {
        Ok(self.column)
    }

    fn line_range(&'a self, (): (), _: usize) -> Result<Range<usize>, Error> {
        Ok(0..self.shown.len())
    }
}
