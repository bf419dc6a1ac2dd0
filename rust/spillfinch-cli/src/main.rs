use std::process::ExitCode;

use spillfinch_cli::commands;

fn main() -> ExitCode {
    let matches = commands::command().get_matches();
    commands::run(&matches).print()
}
