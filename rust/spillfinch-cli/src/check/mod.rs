//! All that is said of a rules text: its faults, and where the real daemon does otherwise.

mod faults;
mod json;
mod labels;
mod show;
pub mod warnings;

pub use json::json;
pub use show::{long, short};

use std::path::PathBuf;

use spillfinch::Refusal;

use crate::syntax::{lines, rules, Place, Span};

/// One thing that is said of a line.
#[derive(Clone, Debug, PartialEq, Eq)]
pub struct Remark {
    pub subject: Subject,
    /// From 1; 0 where it is about no line.
    pub line: u32,
    pub span: Option<Span>,
    pub text: String,
    pub hint: Option<String>,
}

#[derive(Clone, Copy, Debug, PartialEq, Eq)]
pub enum Subject {
    Fault(Refusal),
    /// By its number in the list of differences.
    Warning(u8),
}

impl Subject {
    pub fn is_fault(self) -> bool {
        matches!(self, Subject::Fault(_))
    }

    /// `fault 19`, `warning E4`.
    fn title(self) -> String {
        match self {
            Subject::Fault(refusal) => format!("fault {}", refusal.number()),
            Subject::Warning(number) => format!("warning E{number}"),
        }
    }
}

/// A file and what is said of it, by its lines.
#[derive(Debug)]
pub struct Checked {
    pub path: PathBuf,
    pub text: Vec<u8>,
    pub remarks: Vec<Remark>,
}

/// Checks a text; the warnings that are allowed are left out.
pub fn check(path: PathBuf, text: Vec<u8>, allowed: &[u8]) -> Checked {
    let struck = faults::strike(&text);
    let mut remarks = faults::remarks(&text, &struck);
    let mut warnings = warnings::of(&rules(&struck.text));
    warnings.retain(|warning| match warning.subject {
        Subject::Warning(number) => !allowed.contains(&number),
        Subject::Fault(_) => true,
    });
    remarks.append(&mut warnings);
    remarks.sort_by_key(|remark| (remark.line, !remark.subject.is_fault(), start(remark)));
    Checked {
        path,
        text,
        remarks,
    }
}

impl Checked {
    /// Where a remark points; the whole physical line where it points at no part of it.
    fn place(&self, remark: &Remark) -> Option<Place<'_>> {
        let lines = lines(&self.text);
        let line = lines.iter().find(|line| line.number == remark.line)?;
        Some(line.place(remark.span.as_ref()))
    }
}

/// Where a place begins in its physical line, in characters from 1.
fn column(place: &Place) -> usize {
    let before = &place.bytes[..place.span.start];
    String::from_utf8_lossy(before).chars().count() + 1
}

fn start(remark: &Remark) -> usize {
    remark.span.as_ref().map_or(0, |span| span.start)
}

/// How much is said of some files.
#[derive(Clone, Copy, Debug, PartialEq, Eq)]
pub struct Counts {
    pub files: usize,
    pub faults: usize,
    pub warnings: usize,
}

impl Counts {
    pub fn of(files: &[Checked]) -> Counts {
        let remarks = files.iter().flat_map(|file| &file.remarks);
        let all = remarks.clone().count();
        let faults = remarks.filter(|remark| remark.subject.is_fault()).count();
        Counts {
            files: files.len(),
            faults,
            warnings: all - faults,
        }
    }

    /// The closing line.
    pub fn line(self) -> String {
        let Counts {
            files,
            faults,
            warnings,
        } = self;
        let counted = |count: usize, word: &str| match count {
            1 => format!("1 {word}"),
            _ => format!("{count} {word}s"),
        };
        format!(
            "{}: {}, {}",
            counted(files, "file"),
            counted(faults, "fault"),
            counted(warnings, "warning")
        )
    }
}
