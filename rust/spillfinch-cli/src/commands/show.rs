//! `spillfinch show`: a device and its parents as keys of rules.

use clap::{ArgMatches, Command};
use recordings::escape::escape;
use recordings::{ChainDevice, Device, Node};

use super::{device as device_argument, names, Done};
use crate::device;
use crate::report::{Report, Status};
use crate::syntax::quote;
use crate::syntax::Key;

pub fn command() -> Command {
    Command::new("show")
        .about("Print a device and its parents as keys, ready to paste into a rule")
        .arg(
            device_argument("device", "DEV")
                .required(true)
                .help("A packed record, a text form, or a recording (FILE:/devices/... of it)"),
        )
        .after_help("Example:\n  spillfinch show examples/devices/counter.umockdev")
}

/// The keys of one device: name, subsystem, driver, attributes.
type Keys = [Key; 4];
const OF_EVENT: Keys = [Key::Kernel, Key::Subsystem, Key::Driver, Key::Attr];
const OF_PARENT: Keys = [Key::Kernels, Key::Subsystems, Key::Drivers, Key::Attrs];

pub fn run(matches: &ArgMatches) -> Done {
    let mut report = Report::default();
    for name in names(matches, "device") {
        let recorded = device::read(name, b"")?;
        for note in &recorded.left_out {
            report.message_once(note);
        }
        if let Err(refused) = device::judge(&recorded.record) {
            report.message(&format!("{}: {refused}", recorded.name));
            report.ends(Status::Refused);
            continue;
        }
        let device = Device::decode(&recorded.record).expect("the engine accepts the record");
        report.results.extend(shown(&device));
    }
    Ok(report)
}

fn shown(device: &Device) -> Vec<u8> {
    let mut lines = Lines(Vec::new());
    let [event, parents @ ..] = &device.chain[..] else {
        return lines.0;
    };
    let node = match device.node {
        Some(Node { major, minor }) => format!("; node {major}:{minor}"),
        None => String::new(),
    };
    lines.comment(&format!(
        "{}, the device of the event{node}",
        escape(&event.path)
    ));
    lines.add(Key::Action, b"", device.action.name().as_bytes());
    lines.add(Key::Devpath, b"", &event.path);
    lines.device(event, OF_EVENT);
    for property in &device.properties {
        lines.add(Key::Env, &property.name, &property.value);
    }
    for parent in parents {
        lines.0.push(b'\n');
        lines.comment(&format!("{}, a parent", escape(&parent.path)));
        lines.device(parent, OF_PARENT);
    }
    lines.0
}

struct Lines(Vec<u8>);

impl Lines {
    fn comment(&mut self, text: &str) {
        self.0.extend_from_slice(format!("# {text}\n").as_bytes());
    }

    fn add(&mut self, key: Key, argument: &[u8], value: &[u8]) {
        match quote::pair(key, argument, value) {
            Ok(pair) => {
                self.0.extend(pair);
                self.0.push(b'\n');
            }
            Err(reason) => {
                let argument = match argument {
                    b"" => String::new(),
                    name => format!("{{{}}}", escape(name)),
                };
                let key = key.name();
                self.comment(&format!("{key}{argument} cannot be written here: {reason}"));
            }
        }
    }

    fn device(&mut self, device: &ChainDevice, keys: Keys) {
        let [kernel, subsystem, driver, attribute] = keys;
        self.add(kernel, b"", device.name());
        for (key, text) in [(subsystem, &device.subsystem), (driver, &device.driver)] {
            if !text.is_empty() {
                self.add(key, b"", text);
            }
        }
        for entry in &device.attributes {
            self.add(attribute, &entry.name, &entry.value);
        }
    }
}
