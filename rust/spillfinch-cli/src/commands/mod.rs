//! The commands: for each, its arguments and its work.

mod check;
mod contest;
mod convert;
mod import;
mod plan;
mod run;
mod show;
mod strike;
mod test;
mod write;

use std::ffi::OsString;
use std::path::PathBuf;

use clap::{value_parser, Arg, ArgMatches, Command};

use crate::report::{Failure, Report};
use crate::rules_files::of_paths;

type Done = Result<Report, Failure>;

/// A command and what carries it out.
type Row = (fn() -> Command, fn(&ArgMatches) -> Done);

const COMMANDS: [Row; 10] = [
    (check::command, check::run),
    (run::command, run::run),
    (test::command, test::run),
    (write::command, write::run),
    (strike::command, strike::run),
    (show::command, show::run),
    (import::command, import::run),
    (convert::command, convert::run),
    (contest::command, contest::run),
    (plan::command, plan::run),
];

pub fn command() -> Command {
    Command::new("spillfinch")
        .about("Tests udev rules files against recorded devices")
        .version(env!("CARGO_PKG_VERSION"))
        .subcommand_required(true)
        .arg_required_else_help(true)
        .disable_help_subcommand(true)
        .subcommands(COMMANDS.iter().map(|(command, _)| command()))
        .after_help(
            "A file named `-` is standard input. Results go to standard output, messages to\n\
             standard error. Exit status: 0 all well, 1 refused or not as expected, 2 bad usage or\n\
             a file that cannot be read.",
        )
}

pub fn run(matches: &ArgMatches) -> Report {
    let (name, matches) = matches.subcommand().expect("a command is required");
    let (_, carry_out) = COMMANDS
        .iter()
        .find(|(command, _)| command().get_name() == name)
        .expect("every command is in the table");
    carry_out(matches).unwrap_or_else(Report::from)
}

/// An argument that names a file.
fn file(id: &'static str, name: &'static str) -> Arg {
    Arg::new(id)
        .value_name(name)
        .value_parser(value_parser!(PathBuf))
}

/// The argument that names rules files.
fn rules_argument() -> Arg {
    file("files", "FILE|DIR").required(true).num_args(1..).help(
        "Rules files; of a directory all files that end in .rules, and those of its\n\
             rules.d directories if it is the root of a box",
    )
}

/// The rules files that are meant, those of a directory in its place.
fn rules_files(matches: &ArgMatches) -> Result<Vec<PathBuf>, Failure> {
    of_paths(&paths(matches, "files"))
}

/// An argument that names a device: a file, maybe with the path of one device in it.
fn device(id: &'static str, name: &'static str) -> Arg {
    Arg::new(id)
        .value_name(name)
        .value_parser(value_parser!(OsString))
}

fn path<'a>(matches: &'a ArgMatches, id: &str) -> Option<&'a PathBuf> {
    matches.get_one(id)
}

fn paths<'a>(matches: &'a ArgMatches, id: &str) -> Vec<&'a PathBuf> {
    matches.get_many(id).into_iter().flatten().collect()
}

fn names<'a>(matches: &'a ArgMatches, id: &str) -> Vec<&'a OsString> {
    matches.get_many(id).into_iter().flatten().collect()
}
