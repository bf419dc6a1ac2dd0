//! A set of outcome records, each with its device record, whether these are sound or not.

use crate::record::{read_entries, write_entries, BitReader, BitWriter};
use crate::sizes;

#[derive(Clone, Debug, Default, PartialEq, Eq)]
pub struct RecordSet {
    pub entries: Vec<RecordPair>,
}

#[derive(Clone, Debug, PartialEq, Eq)]
pub struct RecordPair {
    pub device: Vec<u8>,
    pub outcome: Vec<u8>,
}

impl RecordSet {
    /// The records of a set, or `None` if it is over its size or against its layout.
    pub fn decode(set: &[u8]) -> Option<RecordSet> {
        let entries = read_entries(set, 0..=sizes::SET_RECORDS, RecordPair::read)?;
        Some(RecordSet { entries })
    }

    /// The set of records whose number and lengths fit into their fields.
    pub fn encode(&self) -> Vec<u8> {
        write_entries(&self.entries, RecordPair::write)
    }
}

impl RecordPair {
    fn read(reader: &mut BitReader) -> Option<RecordPair> {
        Some(RecordPair {
            device: reader.long_bytes()?,
            outcome: reader.long_bytes()?,
        })
    }

    fn write(&self, writer: &mut BitWriter) {
        writer.long_bytes(&self.device);
        writer.long_bytes(&self.outcome);
    }
}
