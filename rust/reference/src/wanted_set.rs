//! A set of device records, whether these are sound or not, each with its wanted link.

use crate::record::{read_entries, write_entries, BitReader, BitWriter};
use crate::sizes;

#[derive(Clone, Debug, PartialEq, Eq)]
pub struct WantedSet {
    pub entries: Vec<Wanted>,
}

#[derive(Clone, Debug, PartialEq, Eq)]
pub struct Wanted {
    pub device: Vec<u8>,
    pub link: Vec<u8>,
}

impl WantedSet {
    /// The records and links of a set, or `None` if it is outside its size or against its layout.
    pub fn decode(set: &[u8]) -> Option<WantedSet> {
        let entries = read_entries(set, 1..=sizes::SET_WANTED, Wanted::read)?;
        Some(WantedSet { entries })
    }

    /// The set of records and links whose number and lengths fit into their fields.
    pub fn encode(&self) -> Vec<u8> {
        write_entries(&self.entries, Wanted::write)
    }
}

impl Wanted {
    fn read(reader: &mut BitReader) -> Option<Wanted> {
        let device = reader.long_bytes()?;
        let link_length = reader.count(8)?;
        Some(Wanted {
            device,
            link: reader.bytes(link_length)?,
        })
    }

    fn write(&self, writer: &mut BitWriter) {
        writer.long_bytes(&self.device);
        writer.count(8, self.link.len());
        writer.text(&self.link);
    }
}
