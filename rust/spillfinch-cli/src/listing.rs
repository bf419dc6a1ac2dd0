//! The listing of what rules files make of a device.

use recordings::escape::escape;
use recordings::{Outcome, RunList};
use spillfinch::{Ran, RecordPair, RefusedFile, RulesFile};

/// An accepted run with its close.
#[derive(Debug)]
pub struct Listed {
    pub listing: String,
    /// The outcome record.
    pub record: Vec<u8>,
}

/// Runs files for devices, each from an outcome record or from its fresh one, with an answer sheet
/// or with the empty one, and closes. One file alone is run whatever its name is.
pub fn list_each(
    files: &[RulesFile],
    devices: &[&[u8]],
    start: Option<&[u8]>,
    sheet: Option<&[u8]>,
) -> Vec<Result<Listed, RefusedFile>> {
    let start_of = |device: &&[u8]| match start {
        Some(start) => start.to_vec(),
        // A faulty device has no fresh record; the run refuses it, a faulty text first.
        None => spillfinch::fresh(device).unwrap_or_default(),
    };
    let starts: Vec<Vec<u8>> = devices.iter().map(start_of).collect();
    let pairs = devices
        .iter()
        .zip(&starts)
        .map(|(device, outcome)| RecordPair { device, outcome });
    let sheet = sheet.unwrap_or(spillfinch::EMPTY_SHEET);
    let closed = |(ran, device): (Result<Ran, RefusedFile>, &&[u8])| {
        let ran = ran?;
        let list = spillfinch::close(device, &ran.record)?;
        Ok(Listed {
            listing: lines(&ran, &list),
            record: ran.record,
        })
    };
    let runs = run_each(files, pairs, sheet);
    runs.into_iter().zip(devices).map(closed).collect()
}

fn run_each<'a>(
    files: &'a [RulesFile],
    pairs: impl Iterator<Item = RecordPair<'a>>,
    sheet: &'a [u8],
) -> Vec<Result<Ran, RefusedFile>> {
    match files {
        [file] => {
            let runs = spillfinch::run_each(file.text, pairs, sheet);
            runs.map(|ran| ran.map_err(RefusedFile::from)).collect()
        }
        _ => {
            let run =
                |pair: RecordPair| spillfinch::run_files(files, pair.device, pair.outcome, sheet);
            pairs.map(run).collect()
        }
    }
}

/// The listing of a refusal, with the name of its file if that is one of several.
pub fn refused(files: &[RulesFile], refused: &RefusedFile) -> String {
    let RefusedFile { refused, position } = refused;
    match position.checked_sub(1) {
        None => format!("{refused}\n"),
        Some(index) => {
            let name = escape(files[index as usize].name);
            format!("{refused} file {name}\n")
        }
    }
}

fn lines(ran: &Ran, list: &[u8]) -> String {
    let outcome = Outcome::decode(&ran.record).expect("the engine writes a record");
    let list = RunList::decode(list).expect("the engine writes a run list");
    let mut lines = Lines::default();
    lines.add("visited", ran.visited.to_string().as_bytes());
    lines.add("tried", ran.tried.to_string().as_bytes());
    lines.add("priority", outcome.priority.to_string().as_bytes());
    if let Some(mode) = outcome.mode {
        lines.add("mode", format!("{mode:04o}").as_bytes());
    }
    for (word, name) in [("owner", &outcome.owner), ("group", &outcome.group)] {
        if !name.is_empty() {
            lines.add(word, name);
        }
    }
    if let Some(word) = outcome.watch.word() {
        lines.0 += word;
        lines.0.push('\n');
    }
    for link in &outcome.links {
        lines.add("link", link);
    }
    for property in &outcome.properties {
        let entry = [&property.name[..], b"=", &property.value].concat();
        lines.add("env", &entry);
    }
    for tag in &outcome.tags {
        lines.add("tag", tag);
    }
    for command in &list.commands {
        lines.add(command.run_type.name(), &command.text);
    }
    lines.0
}

#[derive(Default)]
struct Lines(String);

impl Lines {
    fn add(&mut self, word: &str, text: &[u8]) {
        self.0 += word;
        self.0.push(' ');
        self.0 += &escape(text);
        self.0.push('\n');
    }
}
