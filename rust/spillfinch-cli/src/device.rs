//! Devices as they are named on the command line: a packed record, a text form, or one device
//! of a recording; and the outcome record and the answer sheet beside them.

use std::ffi::OsStr;
use std::os::unix::ffi::OsStrExt;
use std::path::{Path, PathBuf};

use recordings::escape::escape;
use recordings::form::{read_device, read_outcome, read_sheet, FormError};
use recordings::import::{import, Named};
use recordings::recording::{is_recording, read_recording, Block};
use recordings::{Action, Device, Entry, Outcome, Sheet};
use spillfinch::Refused;

use crate::files;
use crate::report::Failure;
use crate::syntax::names::named;

/// A packed record, with what of its recording it lacks.
#[derive(Debug)]
pub struct Recorded {
    /// As it was named.
    pub name: String,
    pub record: Vec<u8>,
    pub left_out: Vec<String>,
}

/// A file, and the path of the device in it that is meant.
#[derive(Clone, Debug, PartialEq, Eq)]
pub struct Source {
    pub file: PathBuf,
    pub device: Option<Vec<u8>>,
}

impl Source {
    /// `FILE` or `FILE:/PATH`. A file of the whole name is taken as it is.
    pub fn of(argument: &OsStr) -> Source {
        let whole = Path::new(argument);
        let bytes = argument.as_bytes();
        let colons = (0..bytes.len()).filter(|&at| bytes[at..].starts_with(b":/"));
        let cut = |colon: usize| Source {
            file: PathBuf::from(OsStr::from_bytes(&bytes[..colon])),
            device: Some(bytes[colon + 1..].to_vec()),
        };
        let is_file =
            |source: &Source| files::is_standard_input(&source.file) || source.file.exists();
        let found = match whole.exists() {
            true => None,
            false => colons.map(cut).find(is_file),
        };
        found.unwrap_or_else(|| Source {
            file: whole.to_path_buf(),
            device: None,
        })
    }
}

/// What is wrong at a line of a file.
pub fn at_line(file: &Path, error: &FormError) -> Failure {
    let FormError { line, message } = error;
    Failure(format!("{}:{line}: {message}", files::shown(file)))
}

/// What a file holds.
enum Content {
    Alone(Vec<u8>),
    Recording(Vec<Block>),
}

fn content(file: &Path) -> Result<Content, Failure> {
    let bytes = files::read(file)?;
    if !is_recording(&bytes) {
        return Ok(Content::Alone(bytes));
    }
    let blocks = read_recording(&bytes).map_err(|error| at_line(file, &error))?;
    Ok(Content::Recording(blocks))
}

/// The packed record of a device. Of a recording, what the rules name is kept first.
pub fn read(argument: &OsStr, rules: &[u8]) -> Result<Recorded, Failure> {
    let source = Source::of(argument);
    one_of(argument, &source, content(&source.file)?, rules)
}

/// The same, and all devices of a recording of which none is picked.
pub fn read_all(argument: &OsStr, rules: &[u8]) -> Result<Vec<Recorded>, Failure> {
    let source = Source::of(argument);
    let file = &source.file;
    match content(file)? {
        Content::Recording(blocks) if source.device.is_none() => {
            let of_block = |event: usize| {
                let path = escape(&blocks[event].path);
                let name = format!("{}:{path}", files::shown(file));
                recorded(name, file, &blocks, event, rules)
            };
            (0..blocks.len()).map(of_block).collect()
        }
        content => Ok(vec![one_of(argument, &source, content, rules)?]),
    }
}

fn one_of(
    argument: &OsStr,
    source: &Source,
    content: Content,
    rules: &[u8],
) -> Result<Recorded, Failure> {
    let name = files::shown(Path::new(argument));
    match content {
        Content::Alone(bytes) => read_alone(name, source, bytes),
        Content::Recording(blocks) => {
            let event = event(source, &blocks)?;
            recorded(name, &source.file, &blocks, event, rules)
        }
    }
}

/// A device of a recording.
fn recorded(
    name: String,
    file: &Path,
    blocks: &[Block],
    event: usize,
    rules: &[u8],
) -> Result<Recorded, Failure> {
    let imported = import_block(file, blocks, event, rules)?;
    Ok(Recorded {
        name,
        record: packed(file, imported.device.encode())?,
        left_out: imported.left_out,
    })
}

/// A device in a file of its own.
fn read_alone(name: String, source: &Source, bytes: Vec<u8>) -> Result<Recorded, Failure> {
    if source.device.is_some() {
        let file = files::shown(&source.file);
        return Err(Failure(format!(
            "{file}: only a recording holds several devices"
        )));
    }
    let record = match is_packed(&bytes) {
        true => bytes,
        false => {
            let device = read_device(&bytes).map_err(|error| at_line(&source.file, &error))?;
            packed(&source.file, device.encode())?
        }
    };
    Ok(Recorded {
        name,
        record,
        left_out: Vec::new(),
    })
}

/// The packed record of an outcome, from a packed record or a text form.
pub fn read_start(file: &Path) -> Result<Vec<u8>, Failure> {
    let bytes = files::read(file)?;
    if is_packed(&bytes) || Outcome::decode(&bytes).is_some() {
        return Ok(bytes);
    }
    let outcome = read_outcome(&bytes).map_err(|error| at_line(file, &error))?;
    packed(file, outcome.encode())
}

/// The packed answer sheet, from a packed one or a text form.
pub fn read_answers(file: &Path) -> Result<Vec<u8>, Failure> {
    let bytes = files::read(file)?;
    if is_packed_sheet(&bytes) {
        return Ok(bytes);
    }
    let sheet = read_sheet(&bytes).map_err(|error| at_line(file, &error))?;
    packed(file, sheet.encode())
}

/// A packed sheet begins with a number up to 64, of which a text form can begin with few; the
/// others decide only where they are followed by as many replies.
fn is_packed_sheet(bytes: &[u8]) -> bool {
    let is_of_text = |byte: &u8| matches!(byte, b'\t' | b'\n' | b'\r' | b' '..);
    bytes.first().is_some_and(|first| !is_of_text(first))
        || bytes.contains(&0)
        || Sheet::decode(bytes).is_some()
}

/// Records of edition 1 have that number in their first four bits, which no byte of a text
/// form has; a text form holds no NUL.
fn is_packed(bytes: &[u8]) -> bool {
    is_old(bytes) || bytes.contains(&0)
}

/// Whether a record is of edition 1.
pub fn is_old(record: &[u8]) -> bool {
    matches!(record, [0x10..=0x1f, ..])
}

/// What was made of a file; its lengths were looked at before, so it fits.
fn packed(file: &Path, record: Option<Vec<u8>>) -> Result<Vec<u8>, Failure> {
    record.ok_or_else(|| Failure(format!("{}: it fits no record", files::shown(file))))
}

/// Which block of a recording is meant; without a path the first.
pub fn event(source: &Source, blocks: &[Block]) -> Result<usize, Failure> {
    let Some(path) = &source.device else {
        return Ok(0);
    };
    let found = blocks.iter().position(|block| block.path == *path);
    found.ok_or_else(|| {
        let file = files::shown(&source.file);
        Failure(format!("{file}: no device {}", escape(path)))
    })
}

/// A device of a recording, and what it lacks, said of its file.
pub struct FromRecording {
    pub device: Device,
    pub left_out: Vec<String>,
}

/// Makes the record of a block. What the rules name is kept first, if not all of it has room.
pub fn import_block(
    file: &Path,
    blocks: &[Block],
    event: usize,
    rules: &[u8],
) -> Result<FromRecording, Failure> {
    let file = files::shown(file);
    let import = |named: &Named| {
        import(blocks, event, named).map_err(|message| {
            let path = escape(&blocks[event].path);
            Failure(format!("{file}: {path}: {message}"))
        })
    };
    let mut imported = import(&Named::default())?;
    if imported
        .left_out
        .iter()
        .any(|note| note.reason.is_of_room())
    {
        imported = import(&named(rules))?;
    }
    let note = |note| format!("{file}: {note}");
    Ok(FromRecording {
        device: imported.device,
        left_out: imported.left_out.iter().map(note).collect(),
    })
}

/// The record of the same device in another event. A property ACTION says the new action too. A
/// record that cannot be read stays as it is, for the engine to refuse.
pub fn with_action(record: Vec<u8>, action: Action) -> Vec<u8> {
    let Some(mut device) = Device::decode(&record) else {
        return record;
    };
    device.action = action;
    let is_action = |property: &&mut Entry| property.name == b"ACTION";
    if let Some(property) = device.properties.iter_mut().find(is_action) {
        property.value = action.name().into();
    }
    device.encode().unwrap_or(record)
}

/// Whether the engine takes a device record; else what is said of it.
pub fn judge(record: &[u8]) -> Result<(), String> {
    match spillfinch::fresh(record) {
        Ok(_) => Ok(()),
        Err(Refused { refusal, .. }) => Err(format!("refused {}: {refusal}", refusal.number())),
    }
}
