//! `spillfinch convert`: an outcome record of one edition as one of the other.

use clap::builder::PossibleValuesParser;
use clap::{Arg, ArgMatches, Command};
use recordings::form::write_outcome;
use recordings::Outcome;
use spillfinch::Refusal;

use super::{device as device_argument, file, names, path, Done};
use crate::report::{Failure, Report, Status};
use crate::{device, files};

pub fn command() -> Command {
    Command::new("convert")
        .about("Make an outcome record of edition 2 from one of edition 1, or back")
        .arg(
            file("outcome", "OUTCOME")
                .required(true)
                .help("The packed outcome record"),
        )
        .arg(
            device_argument("device", "DEV")
                .long("device")
                .required(true)
                .help("Its device: a packed record, a text form, or a recording"),
        )
        .arg(
            Arg::new("edition")
                .long("edition")
                .value_name("N")
                .value_parser(PossibleValuesParser::new(["1", "2"]))
                .default_value("2")
                .hide_possible_values(true)
                .hide_default_value(true)
                .help("The edition to make, 2 or 1; 1 cannot say an output, watch or nowatch"),
        )
        .arg(
            file("record", "OUT")
                .short('o')
                .long("output")
                .help("Write the packed record to this file; else it is printed as text"),
        )
        .after_help(
            "Example:\n  spillfinch convert examples/devices/old.outcome --device examples/devices/counter.device",
        )
}

pub fn run(matches: &ArgMatches) -> Done {
    let outcome = path(matches, "outcome").expect("it is required");
    let file = path(matches, "record");
    if file.is_some_and(|file| files::is_standard_input(file)) {
        return Err(Failure(String::from("-o takes the name of a file")));
    }
    let name = names(matches, "device")[0];
    let recorded = device::read(name, b"")?;
    let lent = files::read(outcome)?;
    let is_to_old = matches.get_one::<String>("edition").map(String::as_str) == Some("1");
    let mut report = Report::default();
    for note in &recorded.left_out {
        report.message_once(note);
    }
    let converted = match is_to_old {
        true => spillfinch::older(&recorded.record, &lent),
        false => spillfinch::newer(&recorded.record, &lent),
    };
    match (converted, file) {
        (Ok(record), Some(file)) => files::write_all(&[(file.clone(), record)])?,
        (Ok(record), None) => {
            let newer = if is_to_old { &lent } else { &record };
            let outcome = Outcome::decode(newer).expect("the engine accepts the record");
            report.results.extend(write_outcome(&outcome).into_bytes());
        }
        (Err(refused), _) => {
            let file = match refused.refusal {
                Refusal::DeviceBad => recorded.name,
                _ => files::shown(outcome),
            };
            let (number, refusal) = (refused.refusal.number(), refused.refusal);
            report.message(&format!("{file}: refused {number}: {refusal}"));
            report.ends(Status::Refused);
        }
    }
    Ok(report)
}
