//! Help, examples of the help, and words that no command takes.

mod common;

use common::{program, repository, run_in, Folder};
use std::process::Command;

const COMMANDS: [&str; 10] = [
    "check", "run", "test", "write", "strike", "show", "import", "convert", "contest", "plan",
];

fn help(command: &str) -> String {
    let said = run_in(&repository(), &[command, "--help"], b"");
    assert_eq!((said.status, said.err.as_str()), (0, ""), "{command}");
    said.out
}

/// The command line behind `Example:`.
fn example(help: &str) -> Vec<&str> {
    let (_, example) = help.split_once("Example:\n").expect("an example");
    let line = example.lines().next().expect("a line of it");
    line.split_whitespace().collect()
}

#[test]
fn every_command_has_an_example_that_works() {
    for command in COMMANDS {
        let help = help(command);
        let example = example(&help);
        assert_eq!(example[..2], ["spillfinch", command]);
        let said = run_in(&repository(), &example[1..], b"");
        assert_eq!(said.status, 0, "{command}: {}", said.err);
        assert!(!said.out.is_empty(), "{command}");
        assert_eq!(said.err.is_empty(), command != "strike", "{command}");
    }
}

#[test]
fn the_help_of_all() {
    let said = run_in(&repository(), &["--help"], b"");
    assert_eq!(said.status, 0);
    for command in COMMANDS {
        assert!(said.out.contains(&format!("\n  {command} ")), "{command}");
    }
    assert!(said.out.contains("Exit status: 0 all well, 1 refused"));
    let said = run_in(&repository(), &["--version"], b"");
    said.is(0, "spillfinch 0.1.0\n", "");
}

#[test]
fn lines_of_help_fit_a_terminal() {
    let own = run_in(&repository(), &["--help"], b"").out;
    for help in COMMANDS.map(help).into_iter().chain([own]) {
        for line in help.lines() {
            assert!(line.len() <= 100, "{line}");
        }
    }
}

#[test]
fn bad_usage() {
    let folder = Folder::new("bad_usage");
    for (arguments, message) in [
        (&[][..], "Usage: spillfinch <COMMAND>"),
        (&["chek"], "Did you mean 'check'?"),
        (&["check"], "<FILE|DIR>..."),
        (
            &["check", "--format=xml", "a"],
            "[possible values: short, long, json]",
        ),
        (&["check", "--allow=E18", "a"], "warned of are E1, E2, E3,"),
        (&["check", "--allow=2", "a"], "warned of are E1, E2, E3,"),
        (&["run"], "required arguments were not provided"),
        (&["run", "a"], "--device <DEV>"),
        (
            &["run", "a", "--device", "b", "--action", "jump"],
            "[possible values: add, remove,",
        ),
        (&["show"], "<DEV>"),
        (&["show", "a", "b"], "Found argument 'b'"),
        (&["import"], "<RECORDING>..."),
        (&["test", "a", "b"], "Found argument 'b'"),
        (&["test", "--updat"], "--update"),
        (&["write"], "<FILE|DIR>..."),
        (
            &["write", "--check", "--in-place", "a"],
            "cannot be used with",
        ),
    ] {
        let said = folder.run(arguments);
        assert_eq!(said.status, 2, "{arguments:?}");
        assert_eq!(said.out, "", "{arguments:?}");
        assert!(said.err.contains(message), "{arguments:?}: {}", said.err);
    }
}

/// A reader that stops early is no fault, a full disk is one.
#[test]
fn standard_output_that_cannot_be_written() {
    let examples = repository().join("examples/devices/counter.umockdev");
    let shell = |line: &str| {
        let output = Command::new("sh")
            .args(["-c", line, program().to_str().expect("a path")])
            .arg(&examples)
            .output();
        output.expect("a shell")
    };
    let piped = shell("\"$0\" show \"$1\" 2>&1 >&- | head -n 1; \"$0\" show \"$1\" | true");
    assert_eq!(piped.status.code(), Some(0));
    if std::path::Path::new("/dev/full").exists() {
        let full = shell("\"$0\" show \"$1\" >/dev/full");
        assert_eq!(full.status.code(), Some(2));
        let message = String::from_utf8_lossy(&full.stderr).into_owned();
        assert!(
            message.starts_with("spillfinch: standard output: "),
            "{message}"
        );
    }
}
