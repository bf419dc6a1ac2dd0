//! `spillfinch import`: text forms of the devices of recordings.

use std::collections::BTreeSet;
use std::fs;
use std::path::{Path, PathBuf};

use clap::{Arg, ArgAction, ArgMatches, Command};
use recordings::escape::escape;
use recordings::form::write_device;
use recordings::recording::{is_recording, read_recording, Block};
use recordings::Device;

use super::{device as device_argument, file, names, path, Done};
use crate::device::{at_line, event, import_block, judge, Source};
use crate::files;
use crate::report::{Failure, Report, Status};

pub fn command() -> Command {
    Command::new("import")
        .about("Make text forms of the devices of recordings")
        .arg(
            device_argument("recordings", "RECORDING")
                .required(true)
                .num_args(1..)
                .help(
                    "Output of umockdev-record or `udevadm info --export-db`; FILE:/devices/...
\
                     is one device of it",
                ),
        )
        .arg(
            file("directory", "DIR")
                .short('o')
                .long("output")
                .help("Write every device to a file of its own here; else the first is printed"),
        )
        .arg(
            file("rules", "RULES")
                .long("rules")
                .help("Keep the attributes and properties that these rules name before others"),
        )
        .arg(
            Arg::new("force")
                .long("force")
                .action(ArgAction::SetTrue)
                .help("Write over files that are there"),
        )
        .after_help("Example:\n  spillfinch import examples/devices/counter.umockdev")
}

/// A recording that was read: its blocks, and which of them are asked for.
struct Recording {
    file: PathBuf,
    blocks: Vec<Block>,
    events: Vec<usize>,
}

pub fn run(matches: &ArgMatches) -> Done {
    let directory = path(matches, "directory");
    let arguments = names(matches, "recordings");
    if directory.is_none() && arguments.len() > 1 {
        let message = "several recordings are written to a directory: -o DIR";
        return Err(Failure(String::from(message)));
    }
    let rules = match path(matches, "rules") {
        Some(rules) => files::read(rules)?,
        None => Vec::new(),
    };
    let mut recordings = Vec::new();
    for argument in arguments {
        recordings.push(read(&Source::of(argument), directory.is_some())?);
    }
    let mut report = Report::default();
    let mut devices = Vec::new();
    for recording in &recordings {
        take(recording, &rules, &mut devices, &mut report);
    }
    match directory {
        None => report.results.extend(
            devices
                .iter()
                .flat_map(|device| write_device(device).into_bytes()),
        ),
        Some(directory) => write(directory, &devices, matches.get_flag("force"), &mut report)?,
    }
    Ok(report)
}

fn read(source: &Source, takes_all: bool) -> Result<Recording, Failure> {
    let bytes = files::read(&source.file)?;
    if !is_recording(&bytes) {
        let file = files::shown(&source.file);
        let message = format!("{file}: no recording, which begins with a line `P: PATH`");
        return Err(Failure(message));
    }
    let blocks = read_recording(&bytes).map_err(|error| at_line(&source.file, &error))?;
    let events = match takes_all && source.device.is_none() {
        true => (0..blocks.len()).collect(),
        false => vec![event(source, &blocks)?],
    };
    Ok(Recording {
        file: source.file.clone(),
        blocks,
        events,
    })
}

/// Makes the devices of a recording that the engine accepts; what is left out is said once.
fn take(recording: &Recording, rules: &[u8], devices: &mut Vec<Device>, report: &mut Report) {
    let file = files::shown(&recording.file);
    if recording
        .blocks
        .iter()
        .all(|block| block.attributes.is_empty())
    {
        report.message(&format!(
            "{file}: no attributes, so ATTR and ATTRS find nothing"
        ));
    }
    for &event in &recording.events {
        let made = import_block(&recording.file, &recording.blocks, event, rules);
        let made = made.map_err(|failure| failure.0).and_then(|made| {
            let path = escape(&recording.blocks[event].path);
            let record = made.device.encode().unwrap_or_default();
            let judged = judge(&record).map_err(|refused| format!("{file}: {path}: {refused}"));
            judged.map(|()| made)
        });
        match made {
            Ok(made) => {
                for note in &made.left_out {
                    report.message_once(note);
                }
                devices.push(made.device);
            }
            Err(message) => {
                report.message(&message);
                report.ends(Status::Refused);
            }
        }
    }
}

fn write(
    directory: &Path,
    devices: &[Device],
    is_forced: bool,
    report: &mut Report,
) -> Result<(), Failure> {
    let mut taken = BTreeSet::new();
    let mut forms = Vec::new();
    for device in devices {
        let path = directory.join(file_name(device, &mut taken));
        if path.exists() && !is_forced {
            let path = files::shown(&path);
            return Err(Failure(format!(
                "{path}: the file exists; --force overwrites it"
            )));
        }
        report.result(&files::shown(&path));
        forms.push((path, write_device(device).into_bytes()));
    }
    fs::create_dir_all(directory).map_err(|error| files::failure(directory, &error))?;
    files::write_all(&forms)
}

/// The subsystem and the name of a device, with a number where that is taken.
fn file_name(device: &Device, taken: &mut BTreeSet<String>) -> String {
    let event = &device.chain[0];
    let mut parts = vec![plain(&event.subsystem), plain(event.name())];
    parts.retain(|part| !part.is_empty());
    let stem = parts.join("-");
    let numbered = (2..).map(|number| format!("{stem}-{number}.device"));
    let mut candidates = std::iter::once(format!("{stem}.device")).chain(numbered);
    let free = candidates.find(|name| !taken.contains(name));
    let name = free.expect("there is always a next number");
    taken.insert(name.clone());
    name
}

/// A part of a file name without bytes that a shell would mind.
fn plain(text: &[u8]) -> String {
    let shown = |&byte: &u8| match byte {
        b'A'..=b'Z' | b'a'..=b'z' | b'0'..=b'9' | b'.' | b'_' | b':' | b'+' | b'@' | b'-' => {
            char::from(byte)
        }
        _ => '_',
    };
    text.iter().map(shown).collect()
}
