//! The run list that a close makes.

use crate::device::Device;
use crate::outcome::{Outcome, Run, RunType};
use crate::record::{BitReader, BitWriter};
use crate::template::{Inserted, Sources};

#[derive(Clone, Debug, PartialEq, Eq)]
pub struct RunList {
    pub entries: Vec<RunEntry>,
}

#[derive(Clone, Debug, PartialEq, Eq)]
pub struct RunEntry {
    pub run_type: RunType,
    pub text: Vec<u8>,
}

impl RunList {
    /// The run list of an outcome, or `None` if a substituted text is too long.
    pub fn of(outcome: &Outcome, device: &Device) -> Option<RunList> {
        let entries = outcome
            .runs
            .iter()
            .map(|run| entry(run, outcome, device))
            .collect::<Option<_>>()?;
        Some(RunList { entries })
    }

    /// The run list of a record, or `None` if the record is none.
    pub fn decode(record: &[u8]) -> Option<RunList> {
        let mut reader = BitReader::new(record);
        let count = reader.count(5)?;
        reader.unused(3)?;
        let entries = (0..count)
            .map(|_| RunEntry::read(&mut reader))
            .collect::<Option<_>>()?;
        reader.end()?;
        Some(RunList { entries })
    }

    pub fn encode(&self) -> Vec<u8> {
        let mut writer = BitWriter::new();
        writer.count(5, self.entries.len());
        writer.unused(3);
        for entry in &self.entries {
            entry.write(&mut writer);
        }
        writer.finish()
    }
}

impl RunEntry {
    fn read(reader: &mut BitReader) -> Option<RunEntry> {
        let is_builtin = reader.flag()?;
        let length = reader.count(10)?;
        reader.unused(5)?;
        Some(RunEntry {
            run_type: RunType::of_bit(is_builtin),
            text: reader.text(length)?,
        })
    }

    fn write(&self, writer: &mut BitWriter) {
        writer.flag(self.run_type.bit());
        writer.count(10, self.text.len());
        writer.unused(5);
        writer.text(&self.text);
    }
}

fn entry(run: &Run, outcome: &Outcome, device: &Device) -> Option<RunEntry> {
    let sources = Sources {
        device,
        properties: &outcome.properties,
        output: &outcome.output,
        matched: run.matched,
    };
    Some(RunEntry {
        run_type: run.run_type,
        text: run.template.substitute(&sources, Inserted::AsItIs)?,
    })
}
