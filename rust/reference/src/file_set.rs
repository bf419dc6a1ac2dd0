//! A set of rules files, whether their texts are accepted or not.

use crate::record::{read_entries, write_entries, BitReader, BitWriter};
use crate::sizes;

#[derive(Clone, Debug, Default, PartialEq, Eq)]
pub struct FileSet {
    pub files: Vec<RulesFile>,
}

#[derive(Clone, Debug, PartialEq, Eq)]
pub struct RulesFile {
    pub rank: Rank,
    pub name: Vec<u8>,
    pub text: Vec<u8>,
}

/// The directory that a file stands in, the highest first.
#[derive(Clone, Copy, Debug, PartialEq, Eq, PartialOrd, Ord)]
pub enum Rank {
    Etc,
    Run,
    UsrLocalLib,
    Lib,
}

impl Rank {
    /// In the order of their numbers in a set.
    pub const ALL: [Rank; 4] = [Rank::Etc, Rank::Run, Rank::UsrLocalLib, Rank::Lib];
}

/// A file that counts, with its position in the lent order, from 1.
#[derive(Clone, Copy, Debug, PartialEq, Eq)]
pub struct Winner<'a> {
    pub position: u32,
    pub file: &'a RulesFile,
}

impl FileSet {
    /// The files of a set, or `None` if it is over its size or against its layout.
    pub fn decode(set: &[u8]) -> Option<FileSet> {
        let files = read_entries(set, 0..=sizes::SET_FILES, RulesFile::read)?;
        Some(FileSet { files })
    }

    /// The set of files whose number and lengths fit into their fields.
    pub fn encode(&self) -> Vec<u8> {
        write_entries(&self.files, RulesFile::write)
    }

    /// Whether two files have the same name in the same directory.
    pub fn has_equal_files(&self) -> bool {
        let is_equal = |file: &RulesFile, other: &RulesFile| {
            file.name == other.name && file.rank == other.rank
        };
        (0..self.files.len()).any(|place| {
            let (earlier, file) = (&self.files[..place], &self.files[place]);
            earlier.iter().any(|other| is_equal(file, other))
        })
    }

    /// The files that are to run, in the order of their names. Of files with one name that of the
    /// highest rank counts.
    pub fn winners(&self) -> Vec<Winner<'_>> {
        let mut winners: Vec<Winner> = (1..)
            .zip(&self.files)
            .filter(|(_, file)| file.name.ends_with(b".rules") && !self.is_beaten(file))
            .map(|(position, file)| Winner { position, file })
            .collect();
        winners.sort_by_key(|winner| &winner.file.name);
        winners
    }

    fn is_beaten(&self, file: &RulesFile) -> bool {
        self.files
            .iter()
            .any(|other| other.name == file.name && other.rank < file.rank)
    }
}

impl RulesFile {
    fn read(reader: &mut BitReader) -> Option<RulesFile> {
        let rank = *Rank::ALL.get(reader.count(8)?)?;
        let name_length = reader.count(8)?;
        if !(1..=sizes::FILE_NAME).contains(&name_length) {
            return None;
        }
        Some(RulesFile {
            rank,
            name: reader.bytes(name_length)?,
            text: reader.long_bytes()?,
        })
    }

    fn write(&self, writer: &mut BitWriter) {
        writer.count(8, self.rank as usize);
        writer.count(8, self.name.len());
        writer.text(&self.name);
        writer.long_bytes(&self.text);
    }
}
