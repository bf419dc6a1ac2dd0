//! The listing of what a text makes of a device.

use crate::engine::{Finished, Runner};
use crate::operations::{decode_device, decode_outcome, decode_sheet, make_run_list};
use crate::outcome::Outcome;
use crate::refusal::Refusal;
use crate::rules;
use crate::run_list::RunList;
use crate::sheet;

/// The listing after a run from the outcome record, or from the fresh one, with the answer sheet,
/// or with an empty one, and a close.
pub fn listing(
    text: &[u8],
    device: &[u8],
    outcome: Option<&[u8]>,
    sheet: Option<&[u8]>,
) -> Vec<u8> {
    let sheet = sheet.unwrap_or(sheet::EMPTY);
    let lines = match outcome {
        Some(outcome) => list_from(text, device, outcome, sheet),
        None => list_from(text, device, &fresh(device), sheet),
    };
    lines.unwrap_or_else(|refusal| {
        let number = refusal.fault.number();
        format!("refused {number} line {}\n", refusal.line).into_bytes()
    })
}

/// A faulty device has no fresh record. The run refuses it in its turn, after a faulty text.
fn fresh(device: &[u8]) -> Vec<u8> {
    let fresh = decode_device(device).map(|device| Outcome::fresh(&device).encode());
    fresh.unwrap_or_default()
}

fn list_from(text: &[u8], device: &[u8], outcome: &[u8], sheet: &[u8]) -> Result<Vec<u8>, Refusal> {
    let rules = rules::read(text)?;
    let device = decode_device(device)?;
    let outcome = decode_outcome(outcome, &device)?;
    let sheet = decode_sheet(sheet)?;
    let finished = Runner::new(&rules, &device, &sheet, outcome).finish()?;
    let run_list = make_run_list(&finished.outcome, &device)?;
    Ok(lines(&finished, &run_list))
}

fn lines(finished: &Finished, run_list: &RunList) -> Vec<u8> {
    let Finished {
        visited,
        tried,
        outcome,
    } = finished;
    let mut lines = Lines(Vec::new());
    lines.add("visited", visited.to_string().as_bytes());
    lines.add("tried", tried.to_string().as_bytes());
    lines.add("priority", outcome.priority.to_string().as_bytes());
    if let Some(mode) = outcome.mode {
        lines.add("mode", format!("{mode:04o}").as_bytes());
    }
    if let Some(owner) = &outcome.owner {
        lines.add("owner", owner);
    }
    if let Some(group) = &outcome.group {
        lines.add("group", group);
    }
    if let Some(word) = outcome.watch.word() {
        lines.add_word(word);
    }
    for link in &outcome.links {
        lines.add("link", link);
    }
    for property in &outcome.properties {
        lines.add("env", &[&property.key[..], b"=", &property.value].concat());
    }
    for tag in &outcome.tags {
        lines.add("tag", tag);
    }
    for entry in &run_list.entries {
        lines.add(entry.run_type.name(), &entry.text);
    }
    lines.0
}

struct Lines(Vec<u8>);

impl Lines {
    fn add_word(&mut self, word: &str) {
        self.0.extend_from_slice(word.as_bytes());
        self.0.push(b'\n');
    }

    fn add(&mut self, word: &str, text: &[u8]) {
        self.0.extend_from_slice(word.as_bytes());
        self.0.push(b' ');
        for &byte in text {
            self.add_byte(byte);
        }
        self.0.push(b'\n');
    }

    fn add_byte(&mut self, byte: u8) {
        if matches!(byte, 32..=126) && byte != b'\\' {
            self.0.push(byte);
        } else {
            self.0
                .extend_from_slice(format!("\\x{byte:02x}").as_bytes());
        }
    }
}
