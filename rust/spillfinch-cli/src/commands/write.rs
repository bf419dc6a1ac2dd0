//! `spillfinch write`: the rules of files written back, a line for each.

use std::path::{Path, PathBuf};

use clap::{Arg, ArgAction, ArgMatches, Command};
use spillfinch::{sizes, Refusal, Refused};

use super::{rules_argument, rules_files, Done};
use crate::files;
use crate::report::{Failure, Report, Status};

pub fn command() -> Command {
    Command::new("write")
        .about("Write the rules of files back, a line for each, without comments")
        .arg(rules_argument())
        .arg(
            Arg::new("check")
                .long("check")
                .action(ArgAction::SetTrue)
                .help("Only name the files that would change; if there are any, the status is 1"),
        )
        .arg(
            Arg::new("in-place")
                .long("in-place")
                .action(ArgAction::SetTrue)
                .conflicts_with("check")
                .help("Write the files that change"),
        )
        .after_help(
            "Nothing stands between the parts of a rule, one comma between its pairs; joined lines\n\
             become one, comments and blank lines go. What is written reads back to the same rules\n\
             in the same order. If a file is refused, nothing is printed or written.\n\n\
             Example:\n  spillfinch write examples/listing/rope.rules",
        )
}

/// A file and its rules written back.
struct File {
    path: PathBuf,
    text: Vec<u8>,
    written: Vec<u8>,
}

impl File {
    fn is_changed(&self) -> bool {
        self.text != self.written
    }
}

pub fn run(matches: &ArgMatches) -> Done {
    let is_in_place = matches.get_flag("in-place");
    let mut report = Report::default();
    let mut files = Vec::new();
    for path in rules_files(matches)? {
        if is_in_place && files::is_standard_input(&path) {
            let message = "standard input cannot be written in place";
            return Err(Failure(String::from(message)));
        }
        let text = files::read(&path)?;
        match spillfinch::write(&text) {
            Ok(written) => files.push(File {
                path,
                text,
                written,
            }),
            Err(refused) => {
                report.message(&explain(&path, &text, &refused));
                report.ends(Status::Refused);
            }
        }
    }
    if report.status == Status::Refused {
        return Ok(report);
    }
    if is_in_place {
        put_in_place(files, &mut report)?;
    } else if matches.get_flag("check") {
        name_changed(&files, &mut report);
    } else {
        let written = files.into_iter().flat_map(|file| file.written);
        report.results.extend(written);
    }
    Ok(report)
}

/// Names the files that would change.
fn name_changed(files: &[File], report: &mut Report) {
    let changed: Vec<&File> = files.iter().filter(|file| file.is_changed()).collect();
    for file in &changed {
        report.result(&format!("{} would change", files::shown(&file.path)));
        report.ends(Status::Refused);
    }
    report.result(&closing(files.len(), changed.len(), "would change"));
}

/// Writes the files that change.
fn put_in_place(files: Vec<File>, report: &mut Report) -> Result<(), Failure> {
    let all = files.len();
    let changed: Vec<(PathBuf, Vec<u8>)> = files
        .into_iter()
        .filter(File::is_changed)
        .map(|file| (file.path, file.written))
        .collect();
    files::write_all(&changed)?;
    for (path, _) in &changed {
        report.result(&format!("written {}", files::shown(path)));
    }
    report.result(&closing(all, changed.len(), "written"));
    Ok(())
}

fn closing(all: usize, changed: usize, done: &str) -> String {
    let same = all - changed;
    let files = match all {
        1 => String::from("1 file"),
        _ => format!("{all} files"),
    };
    format!("{files}: {changed} {done}, {same} as before")
}

/// The refusal with the file and the line that it is about.
fn explain(path: &Path, text: &[u8], refused: &Refused) -> String {
    let Refused { refusal, line } = *refused;
    let number = refusal.number();
    let path = files::shown(path);
    if refusal == Refusal::TextLong && text.len() <= sizes::TEXT_MOST {
        return format!("{path}: refused {number}: with its final newline {refusal}");
    }
    match line {
        0 => format!("{path}: refused {number}: {refusal}"),
        _ => format!("{path}:{line}: refused {number}: {refusal}"),
    }
}
