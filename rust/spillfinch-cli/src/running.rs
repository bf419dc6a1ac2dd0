//! Rules files run on devices.

use std::os::unix::ffi::OsStrExt;
use std::path::{Path, PathBuf};

use spillfinch::{sizes, Rank, Refusal, RefusedFile, RulesFile};

use crate::device::{self, Recorded};
use crate::listing::Listed;
use crate::report::Failure;
use crate::rules_files::rank_of;
use crate::{files, listing};

/// Rules files, with the outcome record that their runs start from if not from the fresh one, and
/// the answer sheet that they ask if not the empty one.
pub struct Rules {
    files: Vec<File>,
    start: Option<Lent>,
    sheet: Option<Lent>,
}

struct File {
    path: PathBuf,
    text: Vec<u8>,
}

impl File {
    fn read(path: &Path) -> Result<File, Failure> {
        Ok(File {
            path: path.to_path_buf(),
            text: files::read(path)?,
        })
    }

    fn rank(&self) -> Rank {
        rank_of(&self.path)
    }

    fn name(&self) -> &[u8] {
        self.path.file_name().unwrap_or_default().as_bytes()
    }

    fn as_lent(&self) -> RulesFile<'_> {
        RulesFile {
            rank: self.rank(),
            name: self.name(),
            text: &self.text,
        }
    }
}

/// The files that are lent beside the rules.
#[derive(Clone, Copy, Default)]
pub struct Beside<'a> {
    pub start: Option<&'a Path>,
    pub sheet: Option<&'a Path>,
}

/// A file that was read, as it is packed.
struct Lent {
    path: PathBuf,
    packed: Vec<u8>,
}

impl Lent {
    fn read(path: &Path, read: fn(&Path) -> Result<Vec<u8>, Failure>) -> Result<Lent, Failure> {
        Ok(Lent {
            path: path.to_path_buf(),
            packed: read(path)?,
        })
    }
}

/// What a device gets.
pub struct Given {
    pub listing: String,
    /// The outcome record, or the file and line of what is refused and why.
    pub record: Result<Vec<u8>, String>,
}

impl Rules {
    pub fn read(paths: &[PathBuf], beside: Beside) -> Result<Rules, Failure> {
        let read: Result<_, Failure> = paths.iter().map(|path| File::read(path)).collect();
        let files = read?;
        let start = beside
            .start
            .map(|path| Lent::read(path, device::read_start));
        let sheet = beside
            .sheet
            .map(|path| Lent::read(path, device::read_answers));
        Ok(Rules {
            files,
            start: start.transpose()?,
            sheet: sheet.transpose()?,
        })
    }

    /// The texts of all files, for what they name.
    pub fn text(&self) -> Vec<u8> {
        let texts: Vec<&[u8]> = self.files.iter().map(|file| &file.text[..]).collect();
        texts.join(&b'\n')
    }

    /// What each of the devices gets, in their order.
    pub fn run_each(&self, devices: &[Recorded]) -> Vec<Given> {
        let start = self.start.as_ref().map(|start| start.packed.as_slice());
        let sheet = self.sheet.as_ref().map(|sheet| sheet.packed.as_slice());
        let files: Vec<RulesFile> = self.files.iter().map(File::as_lent).collect();
        let records: Vec<&[u8]> = devices.iter().map(|device| &device.record[..]).collect();
        let listed = listing::list_each(&files, &records, start, sheet);
        let given = |(listed, device): (Result<Listed, RefusedFile>, &Recorded)| match listed {
            Ok(listed) => Given {
                listing: listed.listing,
                record: Ok(listed.record),
            },
            Err(refused) => Given {
                listing: listing::refused(&files, &refused),
                record: Err(self.explain(&refused, &device.name)),
            },
        };
        listed.into_iter().zip(devices).map(given).collect()
    }

    /// The refusal with the file and the line that it is about.
    pub fn explain(&self, refused: &RefusedFile, name: &str) -> String {
        let refusal = refused.refused.refusal;
        let number = refusal.number();
        let place = match (refusal, &self.start, &self.sheet) {
            (Refusal::DeviceBad, ..) => format!("{name}: "),
            (Refusal::OutcomeBad, Some(lent), _) | (Refusal::SheetBad, _, Some(lent)) => {
                format!("{}: ", files::shown(&lent.path))
            }
            _ => self.place(refused),
        };
        let is_of_run = refusal >= Refusal::SubstitutionLong;
        let of_device = match is_of_run {
            true => format!(", for {name}"),
            false => String::new(),
        };
        let hint = match (refusal, &self.start, &self.sheet) {
            (Refusal::OutcomeBad, Some(start), _) if device::is_old(&start.packed) => {
                String::from("; it is of edition 1, of which `spillfinch convert` makes edition 2")
            }
            (Refusal::CommandMissing, _, None) => String::from("; no sheet is given"),
            (Refusal::FileTwice, ..) => self.equal_files(),
            (Refusal::SetBad, ..) => format!(
                ": at most {} files, each with a name of at most {} bytes",
                sizes::FILES_MOST,
                sizes::FILE_NAME_MOST
            ),
            _ => String::new(),
        };
        format!("{place}refused {number}: {refusal}{hint}{of_device}")
    }

    /// The file and the line that a refusal is about, if it is about one.
    fn place(&self, refused: &RefusedFile) -> String {
        let file = match (&self.files[..], refused.position) {
            ([file], _) => file,
            (_, 0) => return String::new(),
            (files, position) => &files[position as usize - 1],
        };
        let path = files::shown(&file.path);
        match refused.refused.line {
            0 => format!("{path}: "),
            line => format!("{path}:{line}: "),
        }
    }

    /// The first two files with one name and one rank.
    fn equal_files(&self) -> String {
        for (at, file) in self.files.iter().enumerate() {
            let is_equal =
                |other: &&File| (other.rank(), other.name()) == (file.rank(), file.name());
            if let Some(other) = self.files[..at].iter().find(is_equal) {
                let [other, file] = [other, file].map(|file| files::shown(&file.path));
                return format!(": {other} and {file}");
            }
        }
        String::new()
    }
}

/// The line before the listing of one device of several; the device as it is shown.
pub fn head(device: &str) -> String {
    format!("device {device}")
}
