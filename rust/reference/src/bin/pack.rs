//! Packs a record from its text form, or shows a packed one in it.

use std::env;
use std::error::Error;
use std::fs;
use std::io::{self, Write};
use std::process::ExitCode;

use reference::sheet_form::{parse_sheet, show_sheet};
use reference::sizes;
use reference::text_form::{parse_device, parse_outcome, show_device, show_outcome};
use reference::{Device, Outcome, Sheet};

const USAGE: &str = "usage: pack [show] device|outcome|sheet FILE [-o OUT]

  pack device FILE         packs the device record that FILE describes
  pack outcome FILE        packs the outcome record that FILE describes
  pack sheet FILE          packs the answer sheet that FILE describes
  pack show device FILE    describes the packed device record in FILE
  pack show outcome FILE   describes the packed outcome record in FILE
  pack show sheet FILE     describes the packed answer sheet in FILE

The result goes to standard output, or to OUT with -o.";

#[derive(Clone, Copy)]
enum Kind {
    Device,
    Outcome,
    Sheet,
}

struct Command {
    shows: bool,
    kind: Kind,
    file: String,
    out: Option<String>,
}

fn main() -> ExitCode {
    let arguments: Vec<String> = env::args().skip(1).collect();
    let Some(command) = read_command(&arguments) else {
        eprintln!("{USAGE}");
        return ExitCode::from(2);
    };
    match carry_out(&command) {
        Ok(()) => ExitCode::SUCCESS,
        Err(error) => {
            eprintln!("{}: {error}", command.file);
            ExitCode::FAILURE
        }
    }
}

fn read_command(arguments: &[String]) -> Option<Command> {
    let mut words: Vec<&str> = arguments.iter().map(String::as_str).collect();
    let shows = words.first() == Some(&"show");
    if shows {
        words.remove(0);
    }
    let (kind, file, out) = match words[..] {
        [kind, file] => (kind, file, None),
        [kind, file, "-o", out] | ["-o", out, kind, file] => (kind, file, Some(out)),
        _ => return None,
    };
    let kind = match kind {
        "device" => Kind::Device,
        "outcome" => Kind::Outcome,
        "sheet" => Kind::Sheet,
        _ => return None,
    };
    Some(Command {
        shows,
        kind,
        file: file.to_string(),
        out: out.map(str::to_string),
    })
}

fn carry_out(command: &Command) -> Result<(), Box<dyn Error>> {
    let input = fs::read(&command.file)?;
    let result = if command.shows {
        show(command.kind, &input)?.into_bytes()
    } else {
        pack(command.kind, &input)?
    };
    match &command.out {
        Some(out) => fs::write(out, result)?,
        None => io::stdout().write_all(&result)?,
    }
    Ok(())
}

fn pack(kind: Kind, form: &[u8]) -> Result<Vec<u8>, Box<dyn Error>> {
    Ok(match kind {
        Kind::Device => parse_device(form)?.encode(),
        Kind::Outcome => parse_outcome(form)?.encode(),
        Kind::Sheet => parse_sheet(form)?.encode(),
    })
}

fn show(kind: Kind, record: &[u8]) -> Result<String, Box<dyn Error>> {
    match kind {
        Kind::Device => {
            let device = Device::decode(record).ok_or("not a sound device record")?;
            Ok(show_device(&device))
        }
        Kind::Outcome => {
            // No device is at hand, so the places may be those of the longest chain.
            let outcome =
                Outcome::decode(record, sizes::CHAIN).ok_or("not a sound outcome record")?;
            Ok(show_outcome(&outcome))
        }
        Kind::Sheet => {
            let sheet = Sheet::decode(record).ok_or("not a sound answer sheet")?;
            Ok(show_sheet(&sheet))
        }
    }
}
