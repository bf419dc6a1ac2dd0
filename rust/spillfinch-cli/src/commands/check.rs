//! `spillfinch check`: every fault of rules files, and where the real daemon does otherwise.

use std::env;
use std::io::{self, IsTerminal};

use clap::{Arg, ArgAction, ArgMatches, Command};

use super::{rules_argument, rules_files, Done};
use crate::check::{check, json, long, short, warnings, Checked, Counts};
use crate::files;
use crate::report::{Report, Status};

pub fn command() -> Command {
    Command::new("check")
        .about("Show the faults of rules files")
        .arg(rules_argument())
        .arg(
            Arg::new("format")
                .long("format")
                .value_name("FORMAT")
                .value_parser(["short", "long", "json"])
                .default_value("long")
                .hide_possible_values(true)
                .help("short, a line each; long, with the line shown; or json"),
        )
        .arg(
            Arg::new("allow")
                .long("allow")
                .value_name("E..")
                .value_delimiter(',')
                .action(ArgAction::Append)
                .value_parser(difference)
                .help("Do not warn of these differences to the real daemon, as E2,E4"),
        )
        .after_help("Example:\n  spillfinch check examples/cases")
}

/// The number of a difference that is warned of.
fn difference(written: &str) -> Result<u8, String> {
    let number = written
        .strip_prefix('E')
        .and_then(|digits| digits.parse().ok());
    let known = number.filter(|number| warnings::NUMBERS.contains(number));
    known.ok_or_else(|| {
        let numbers = warnings::NUMBERS.map(|number| format!("E{number}"));
        format!("warned of are {}", numbers.join(", "))
    })
}

pub fn run(matches: &ArgMatches) -> Done {
    let allowed = matches.get_many("allow").into_iter().flatten();
    let allowed: Vec<u8> = allowed.copied().collect();
    let mut checked = Vec::new();
    for path in rules_files(matches)? {
        let text = files::read(&path)?;
        checked.push(check(path, text, &allowed));
    }
    let format = matches.get_one::<String>("format").map(String::as_str);
    let mut report = Report::default();
    report.results.extend(shown(&checked, format).into_bytes());
    if Counts::of(&checked).faults > 0 {
        report.ends(Status::Refused);
    }
    Ok(report)
}

fn shown(checked: &[Checked], format: Option<&str>) -> String {
    let closing = Counts::of(checked).line();
    match format {
        Some("json") => json(checked),
        Some("short") => {
            let lines: String = checked.iter().map(short).collect();
            format!("{lines}{closing}\n")
        }
        _ => {
            let colors = has_colors();
            let lines: String = checked.iter().map(|file| long(file, colors)).collect();
            format!("{lines}{closing}\n")
        }
    }
}

fn has_colors() -> bool {
    let is_plain = env::var_os("NO_COLOR").is_some_and(|value| !value.is_empty())
        || env::var_os("TERM").is_some_and(|term| term == "dumb");
    io::stdout().is_terminal() && !is_plain
}
