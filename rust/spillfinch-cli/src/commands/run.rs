//! `spillfinch run`: what rules files make of a device.

use std::path::PathBuf;

use clap::builder::PossibleValuesParser;
use clap::{Arg, ArgAction, ArgMatches, Command};
use recordings::Action;

use super::{device as device_argument, file, names, path, rules_argument, rules_files, Done};
use crate::report::{Failure, Report, Status};
use crate::running::{head, Beside, Rules};
use crate::{device, files};

pub fn command() -> Command {
    Command::new("run")
        .about("Print what rules files make of a device")
        .arg(rules_argument())
        .arg(
            device_argument("device", "DEV")
                .long("device")
                .required(true)
                .action(ArgAction::Append)
                .help(
                    "A packed record, a text form, or a recording (FILE:/devices/... is one\n\
                     device of it); several, each with its own --device, get a head line each",
                ),
        )
        .arg(
            Arg::new("action")
                .long("action")
                .value_name("A")
                .value_parser(PossibleValuesParser::new(Action::NAMES))
                .hide_possible_values(true)
                .help(
                    "The event in place of the recorded one, in a property ACTION too: add,\n\
                     remove, change, move, online, offline, bind or unbind",
                ),
        )
        .arg(
            file("from", "OUTCOME")
                .long("from")
                .help("The outcome record to start from, packed or as text; else a fresh one"),
        )
        .arg(
            file("sheet", "SHEET")
                .long("sheet")
                .help("The answer sheet that PROGRAM asks, packed or as text; else an empty one"),
        )
        .arg(
            file("record", "OUT")
                .long("record")
                .help("Write the packed outcome record to this file; for one device"),
        )
        .after_help(
            "Several files run in the order of their names. Of equal names only the highest counts: one\n\
             whose path has the directory etc/udev/rules.d, then run/, usr/local/lib/, and lib/ or usr/lib/;\n\
             other directories are as etc.\n\n\
             Example:\n  spillfinch run examples/listing/rope.rules --device examples/listing/ttyUSB0.device",
        )
}

pub fn run(matches: &ArgMatches) -> Done {
    let devices = names(matches, "device");
    let record_file = path(matches, "record");
    if record_file.is_some() && devices.len() > 1 {
        return Err(Failure(String::from("--record takes one device")));
    }
    if record_file.is_some_and(|file| files::is_standard_input(file)) {
        return Err(Failure(String::from("--record takes the name of a file")));
    }
    let action = matches.get_one::<String>("action");
    let action = action.and_then(|name| Action::of_name(name.as_bytes()));
    let beside = Beside {
        start: path(matches, "from").map(PathBuf::as_path),
        sheet: path(matches, "sheet").map(PathBuf::as_path),
    };
    let rules = Rules::read(&rules_files(matches)?, beside)?;
    let text = rules.text();
    let mut recorded = Vec::new();
    for name in &devices {
        let mut device = device::read(name, &text)?;
        if let Some(action) = action {
            device.record = device::with_action(device.record, action);
        }
        recorded.push(device);
    }

    let mut report = Report::default();
    for (given, device) in rules.run_each(&recorded).into_iter().zip(&recorded) {
        for note in &device.left_out {
            report.message_once(note);
        }
        if devices.len() > 1 {
            report.result(&head(&device.name));
        }
        report.results.extend(given.listing.into_bytes());
        match (given.record, record_file) {
            (Ok(record), Some(file)) => files::write_all(&[(file.clone(), record)])?,
            (Ok(_), None) => {}
            (Err(refused), _) => {
                report.message_once(&refused);
                report.ends(Status::Refused);
            }
        }
    }
    Ok(report)
}
