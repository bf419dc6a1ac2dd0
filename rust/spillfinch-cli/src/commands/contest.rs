//! `spillfinch contest`: which record holds a link that several claim.

use std::ffi::OsString;
use std::path::{Path, PathBuf};

use clap::{ArgAction, ArgMatches, Command};
use recordings::escape::escape;
use recordings::Outcome;
use spillfinch::{contest, sizes, Held, RecordPair, Refusal, RefusedSet};

use super::{device as device_argument, file, names, path, paths, Done};
use crate::device::{self, Recorded};
use crate::files;
use crate::report::{Failure, Report, Status};
use crate::rules_files::of_paths;
use crate::running::{Beside, Rules};

pub fn command() -> Command {
    Command::new("contest")
        .about("Print which of several outcome records holds each link that they claim")
        .arg(
            device_argument("records", "OUTCOME DEV")
                .required(true)
                .num_args(1..)
                .help(
                    "Outcome records, packed or as text, each followed by its device:\n\
                     a packed record, a text form, or a recording; with --rules only devices,\n\
                     and of a recording all unless one is picked",
                ),
        )
        .arg(
            file("rules", "FILE|DIR")
                .long("rules")
                .action(ArgAction::Append)
                .help(
                    "Run rules files on the devices, and contest what their runs leave; several\n\
                     files, directories and the root of a box are taken as by `run`",
                ),
        )
        .arg(
            file("sheet", "SHEET")
                .long("sheet")
                .requires("rules")
                .help("The answer sheet that PROGRAM asks, packed or as text; else an empty one"),
        )
        .after_help(
            "Of the records that claim a link the one with the highest link priority holds it, of\n\
             equals the one named first.\n\n\
             Example:\n  spillfinch contest examples/link/a examples/link/a.device examples/link/b \
             examples/link/b.device\n  spillfinch contest --rules examples/ropes/counters.rules \
             examples/ropes/box.umockdev",
        )
}

/// A record, and what it is called.
struct Lent {
    name: String,
    outcome: Vec<u8>,
    device: Recorded,
}

impl Lent {
    fn read(outcome: &OsString, device: &OsString) -> Result<Lent, Failure> {
        let path = Path::new(outcome);
        Ok(Lent {
            name: files::shown(path),
            outcome: device::read_start(path)?,
            device: device::read(device, b"")?,
        })
    }

    fn pair(&self) -> RecordPair<'_> {
        RecordPair {
            device: &self.device.record,
            outcome: &self.outcome,
        }
    }
}

pub fn run(matches: &ArgMatches) -> Done {
    let arguments = names(matches, "records");
    let rules = paths(matches, "rules");
    let mut report = Report::default();
    let lents = if rules.is_empty() {
        read_records(&arguments, &mut report)?
    } else {
        let beside = Beside {
            start: None,
            sheet: path(matches, "sheet").map(PathBuf::as_path),
        };
        let rules = Rules::read(&of_paths(&rules)?, beside)?;
        run_devices(&rules, &arguments, &mut report)?
    };
    if report.status == Status::Well {
        tell_holders(&lents, &mut report);
    }
    Ok(report)
}

/// The records that are named, each before its device.
fn read_records(arguments: &[&OsString], report: &mut Report) -> Result<Vec<Lent>, Failure> {
    let mut lents = Vec::new();
    for pair in arguments.chunks(2) {
        let [outcome, device] = pair else {
            let last = files::shown(Path::new(pair[0]));
            return Err(Failure(format!("{last}: no device follows it")));
        };
        lents.push(Lent::read(outcome, device)?);
    }
    for lent in &lents {
        tell_left_out(&lent.device, report);
    }
    Ok(lents)
}

/// The records that rules leave, of the devices that get a link. What is refused is said.
fn run_devices(
    rules: &Rules,
    arguments: &[&OsString],
    report: &mut Report,
) -> Result<Vec<Lent>, Failure> {
    let text = rules.text();
    let mut devices = Vec::new();
    for argument in arguments {
        devices.extend(device::read_all(argument, &text)?);
    }
    let mut lents = Vec::new();
    for (given, device) in rules.run_each(&devices).into_iter().zip(devices) {
        tell_left_out(&device, report);
        match given.record {
            Ok(outcome) if has_link(&outcome) => lents.push(Lent {
                name: device.name.clone(),
                outcome,
                device,
            }),
            Ok(_) => {}
            Err(refused) => {
                report.message_once(&refused);
                report.ends(Status::Refused);
            }
        }
    }
    Ok(lents)
}

fn has_link(outcome: &[u8]) -> bool {
    Outcome::decode(outcome).is_some_and(|outcome| !outcome.links.is_empty())
}

fn tell_left_out(device: &Recorded, report: &mut Report) {
    for note in &device.left_out {
        report.message_once(note);
    }
}

fn tell_holders(lents: &[Lent], report: &mut Report) {
    let pairs: Vec<RecordPair> = lents.iter().map(Lent::pair).collect();
    match contest(&pairs) {
        Ok(list) => list.names().for_each(|held| tell(report, lents, held)),
        Err(refused) => {
            report.message(&reason(lents, refused));
            report.ends(Status::Refused);
        }
    }
}

fn tell(report: &mut Report, lents: &[Lent], held: Held) {
    let name = |position: &u8| &lents[usize::from(*position) - 1].name;
    report.result(&format!("link {}", escape(held.name)));
    report.result(&format!("  holder {}", name(&held.holder)));
    for other in held.others {
        report.result(&format!("  other {}", name(other)));
    }
}

fn reason(lents: &[Lent], refused: RefusedSet) -> String {
    let (number, refusal) = (refused.refusal.number(), refused.refusal);
    let reason = format!("refused {number}: {refusal}");
    match (refused.position as usize).checked_sub(1) {
        None if refusal == Refusal::SetBad => format!(
            "{reason}: a contest has at most {} records, and there are {}",
            sizes::RECORDS_MOST,
            lents.len()
        ),
        None => reason,
        Some(index) if refusal == Refusal::DeviceBad => {
            format!("{}: {reason}", lents[index].device.name)
        }
        Some(index) => format!("{}: {reason}", lents[index].name),
    }
}
