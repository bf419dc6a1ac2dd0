//! The answer sheet: what the programs said that rules may ask.

use crate::bytes::all_distinct;
use crate::record::{read_entries, write_entries, BitReader, BitWriter};
use crate::sizes;

/// The packed sheet without entries.
pub const EMPTY: &[u8] = &[0];

#[derive(Clone, Debug, Default, PartialEq, Eq)]
pub struct Sheet {
    pub entries: Vec<SheetEntry>,
}

#[derive(Clone, Debug, PartialEq, Eq)]
pub struct SheetEntry {
    pub command: Vec<u8>,
    pub success: bool,
    pub output: Vec<u8>,
}

impl Sheet {
    /// The entry of a command, unless it is not on the sheet.
    pub fn entry(&self, command: &[u8]) -> Option<&SheetEntry> {
        self.entries.iter().find(|entry| entry.command == command)
    }

    /// The packed sheet's entries, or `None` if the bytes pack no sheet.
    pub fn decode(packed: &[u8]) -> Option<Sheet> {
        if packed.len() > sizes::SHEET {
            return None;
        }
        let entries = read_entries(packed, 0..=sizes::SHEET_ENTRIES, SheetEntry::read)?;
        all_distinct(entries.iter().map(|entry| entry.command.as_slice()))
            .then_some(Sheet { entries })
    }

    /// The packed sheet of entries whose number and lengths fit into their fields.
    pub fn encode(&self) -> Vec<u8> {
        write_entries(&self.entries, SheetEntry::write)
    }
}

impl SheetEntry {
    fn read(reader: &mut BitReader) -> Option<SheetEntry> {
        let success = reader.flag()?;
        let command_length = reader.count(10)?;
        let output_length = reader.count(10)?;
        reader.unused(3)?;
        let is_within_sizes =
            (1..=sizes::COMMAND).contains(&command_length) && output_length <= sizes::OUTPUT;
        if !is_within_sizes {
            return None;
        }
        Some(SheetEntry {
            success,
            command: reader.text(command_length)?,
            output: reader.text(output_length)?,
        })
    }

    fn write(&self, writer: &mut BitWriter) {
        writer.flag(self.success);
        writer.count(10, self.command.len());
        writer.count(10, self.output.len());
        writer.unused(3);
        writer.text(&self.command);
        writer.text(&self.output);
    }

    /// What a success stores.
    pub fn output_without_trailing_newlines(&self) -> &[u8] {
        let mut output = &self.output[..];
        while let Some(rest) = output.strip_suffix(b"\n") {
            output = rest;
        }
        output
    }
}
