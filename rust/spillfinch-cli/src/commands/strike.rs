//! `spillfinch strike`: files without their faulty lines.

use std::path::{Path, PathBuf};

use clap::{Arg, ArgAction, ArgMatches, Command};
use spillfinch::{Refused, Struck};

use super::{rules_argument, rules_files, Done};
use crate::files;
use crate::report::{Failure, Report, Status};

pub fn command() -> Command {
    Command::new("strike")
        .about("Strike the faulty lines of files, and say which")
        .arg(rules_argument())
        .arg(
            Arg::new("list")
                .long("list")
                .action(ArgAction::SetTrue)
                .help("Only name the lines; if there are any, the status is 1"),
        )
        .arg(
            Arg::new("in-place")
                .long("in-place")
                .action(ArgAction::SetTrue)
                .conflicts_with("list")
                .help("Write the files that change"),
        )
        .after_help(
            "A struck line keeps its newlines, so all others keep their numbers. Struck are lines\n\
             with a fault of reading, rules behind the 512th, and then, the last line first,\n\
             each GOTO without a later LABEL. What is left is accepted. If a file is too long,\n\
             nothing is printed or written.\n\n\
             Example:\n  spillfinch strike examples/strike/site.rules",
        )
}

/// A file and what is left of it.
struct File {
    path: PathBuf,
    struck: Struck,
}

impl File {
    /// A line for each strike.
    fn strikes(&self) -> impl Iterator<Item = String> + '_ {
        let path = files::shown(&self.path);
        self.struck.strikes.iter().map(move |strike| {
            let Refused { refusal, line } = strike;
            format!("{path}:{line}: struck {}: {refusal}", refusal.number())
        })
    }
}

pub fn run(matches: &ArgMatches) -> Done {
    let is_in_place = matches.get_flag("in-place");
    let mut report = Report::default();
    let mut struck = Vec::new();
    for path in rules_files(matches)? {
        if is_in_place && files::is_standard_input(&path) {
            let message = "standard input cannot be written in place";
            return Err(Failure(String::from(message)));
        }
        match spillfinch::strike(&files::read(&path)?) {
            Ok(left) => struck.push(File { path, struck: left }),
            Err(refused) => {
                report.message(&explain(&path, &refused));
                report.ends(Status::Refused);
            }
        }
    }
    if report.status == Status::Refused {
        return Ok(report);
    }
    if matches.get_flag("list") {
        list(&struck, &mut report);
        return Ok(report);
    }
    for strike in struck.iter().flat_map(File::strikes) {
        report.message(&strike);
    }
    if is_in_place {
        put_in_place(struck, &mut report)?;
    } else {
        let left = struck.into_iter().flat_map(|file| file.struck.text);
        report.results.extend(left);
    }
    Ok(report)
}

/// Names the lines that would be struck.
fn list(files: &[File], report: &mut Report) {
    for strike in files.iter().flat_map(File::strikes) {
        report.result(&strike);
        report.ends(Status::Refused);
    }
    report.result(&closing(files));
}

/// Writes the files that lose lines.
fn put_in_place(files: Vec<File>, report: &mut Report) -> Result<(), Failure> {
    let said = closing(&files);
    let changed: Vec<(PathBuf, Vec<u8>)> = files
        .into_iter()
        .filter(|file| !file.struck.strikes.is_empty())
        .map(|file| (file.path, file.struck.text))
        .collect();
    files::write_all(&changed)?;
    for (path, _) in &changed {
        report.result(&format!("written {}", files::shown(path)));
    }
    report.result(&said);
    Ok(())
}

fn closing(files: &[File]) -> String {
    let lines: usize = files.iter().map(|file| file.struck.strikes.len()).sum();
    format!(
        "{}, {} struck",
        counted(files.len(), "file"),
        counted(lines, "line")
    )
}

/// `1 file`, `2 files`.
fn counted(count: usize, what: &str) -> String {
    match count {
        1 => format!("1 {what}"),
        _ => format!("{count} {what}s"),
    }
}

fn explain(path: &Path, refused: &Refused) -> String {
    let number = refused.refusal.number();
    format!(
        "{}: refused {number}: {}",
        files::shown(path),
        refused.refusal
    )
}
