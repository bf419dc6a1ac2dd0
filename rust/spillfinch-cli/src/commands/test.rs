//! `spillfinch test`: cases run, and their listings compared with those that are expected.

use std::path::PathBuf;

use clap::{Arg, ArgAction, ArgMatches, Command};
use similar::TextDiff;

use super::{file, path, Done};
use crate::cases::{find, Case, Outcome, EXPECTED};
use crate::files;
use crate::progress::Progress;
use crate::report::{Failure, Report, Status};

pub fn command() -> Command {
    Command::new("test")
        .about("Run cases and compare their listings with the expected ones")
        .arg(
            file("folder", "DIR")
                .default_value(".")
                .help("A folder of cases"),
        )
        .arg(
            Arg::new("update")
                .long("update")
                .action(ArgAction::SetTrue)
                .help("Write the listings as they are now to the expected files"),
        )
        .after_help(
            "A case is a folder with devices (*.device, *.umockdev), rules files (*.rules, and those of\n\
             etc/udev/rules.d and the like, there or in the nearest folder above it within DIR) and the file\n\
             `expected`: what `spillfinch run` prints for them. A file `from` is the outcome record to start\n\
             from, a file `sheet` the answer sheet that PROGRAM asks.\n\n\
             Example:\n  spillfinch test examples/cases",
        )
}

#[derive(Default)]
struct Counts {
    passed: usize,
    failed: usize,
    not_read: usize,
}

pub fn run(matches: &ArgMatches) -> Done {
    let folder = path(matches, "folder").expect("it has a default");
    let cases = find(folder)?;
    if cases.is_empty() {
        let folder = files::shown(folder);
        let message = format!("{folder}: no case, which is a folder with a device");
        return Err(Failure(message));
    }
    let is_update = matches.get_flag("update");
    let mut report = Report::default();
    let mut counts = Counts::default();
    let mut changed: Vec<(PathBuf, Vec<u8>)> = Vec::new();
    let mut progress = Progress::new(cases.len());
    for (done, case) in cases.into_iter().enumerate() {
        progress.at(done);
        match case.and_then(Ran::of) {
            Ok(ran) => {
                for note in &ran.outcome.left_out {
                    report.message_once(note);
                }
                if ran.is_passed() {
                    counts.passed += 1;
                    continue;
                }
                counts.failed += 1;
                match is_update {
                    true => changed.push((ran.case.expected(), ran.outcome.listing.into())),
                    false => ran.show(&mut report),
                }
            }
            Err(failure) => {
                counts.not_read += 1;
                report.message(&failure.to_string());
            }
        }
    }
    drop(progress);
    match is_update {
        true => update(&counts, &changed, &mut report)?,
        false => close(&counts, &mut report),
    }
    Ok(report)
}

/// A case with what it gives and what is expected of it.
struct Ran {
    case: Case,
    outcome: Outcome,
    expected: Option<Vec<u8>>,
}

impl Ran {
    fn of(case: Case) -> Result<Ran, Failure> {
        let path = case.expected();
        let expected = match path.exists() {
            true => Some(files::read(&path)?),
            false => None,
        };
        Ok(Ran {
            outcome: case.run()?,
            case,
            expected,
        })
    }

    fn is_passed(&self) -> bool {
        self.expected.as_deref() == Some(self.outcome.listing.as_bytes())
    }

    /// Shows what differs.
    fn show(&self, report: &mut Report) {
        let folder = files::shown(&self.case.folder);
        if self.expected.is_none() {
            report.message(&format!(
                "{folder}: no file `{EXPECTED}`; --update writes it"
            ));
        }
        for refused in &self.outcome.refused {
            report.message_once(refused);
        }
        let expected = self.expected.as_deref().unwrap_or_default();
        let diff = TextDiff::from_lines(
            String::from_utf8_lossy(expected).as_ref(),
            self.outcome.listing.as_str(),
        )
        .unified_diff()
        .header(
            &files::shown(&self.case.expected()),
            &format!("{folder} now"),
        )
        .to_string();
        report.results.extend(diff.into_bytes());
    }
}

fn cases(count: usize) -> String {
    match count {
        1 => String::from("1 case"),
        _ => format!("{count} cases"),
    }
}

impl Counts {
    fn all(&self) -> usize {
        self.passed + self.failed + self.not_read
    }
}

fn not_read(counts: &Counts, report: &mut Report) -> String {
    match counts.not_read {
        0 => String::new(),
        count => {
            report.ends(Status::Failed);
            format!(", {count} not read")
        }
    }
}

fn close(counts: &Counts, report: &mut Report) {
    if counts.failed > 0 {
        report.ends(Status::Refused);
    }
    let not_read = not_read(counts, report);
    let Counts { passed, failed, .. } = counts;
    let all = cases(counts.all());
    report.result(&format!(
        "{all}: {passed} passed, {failed} failed{not_read}"
    ));
}

/// Writes the expected files that differ, unless a case could not be read.
fn update(
    counts: &Counts,
    changed: &[(PathBuf, Vec<u8>)],
    report: &mut Report,
) -> Result<(), Failure> {
    let not_read = not_read(counts, report);
    let all = cases(counts.all());
    if counts.not_read > 0 {
        report.result(&format!("{all}: nothing updated{not_read}"));
        return Ok(());
    }
    files::write_all(changed)?;
    for (path, _) in changed {
        report.result(&format!("updated {}", files::shown(path)));
    }
    let (updated, same) = (counts.failed, counts.passed);
    report.result(&format!("{all}: {updated} updated, {same} as before"));
    Ok(())
}
