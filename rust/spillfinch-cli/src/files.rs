//! Files in and out. `-` is standard input; what is written is written whole or not at all.

use std::ffi::OsString;
use std::fs;
use std::io::{self, Read, Write};
use std::os::unix::ffi::OsStrExt;
use std::path::{Path, PathBuf};
use std::sync::atomic::{AtomicBool, Ordering};

use recordings::escape::escape;

use crate::report::Failure;

static INPUT_IS_READ: AtomicBool = AtomicBool::new(false);

pub fn is_standard_input(path: &Path) -> bool {
    path.as_os_str() == "-"
}

/// A path as it is shown.
pub fn shown(path: &Path) -> String {
    let bytes = path.as_os_str().as_bytes();
    match path.to_str() {
        Some(path) if !path.chars().any(char::is_control) => path.to_string(),
        _ => escape(bytes),
    }
}

pub fn failure(path: &Path, error: &io::Error) -> Failure {
    let text = error.to_string();
    let reason = text.split(" (os error").next().unwrap_or(&text);
    Failure(format!("{}: {reason}", shown(path)))
}

pub fn read(path: &Path) -> Result<Vec<u8>, Failure> {
    if !is_standard_input(path) {
        return fs::read(path).map_err(|error| failure(path, &error));
    }
    if INPUT_IS_READ.swap(true, Ordering::Relaxed) {
        return Err(Failure(String::from(
            "standard input can be read only once",
        )));
    }
    let mut bytes = Vec::new();
    let read = io::stdin().lock().read_to_end(&mut bytes);
    read.map(|_| bytes)
        .map_err(|error| failure(Path::new("standard input"), &error))
}

/// The files of a directory that some names end in, in byte order.
pub fn list(directory: &Path, endings: &[&str]) -> Result<Vec<PathBuf>, Failure> {
    let has_ending = |path: &PathBuf| {
        let name = path.file_name().map_or(&b""[..], OsStrExt::as_bytes);
        endings
            .iter()
            .any(|ending| name.ends_with(ending.as_bytes()))
    };
    let files = entries(directory)?.into_iter();
    Ok(files
        .filter(|path| !path.is_dir() && has_ending(path))
        .collect())
}

/// All entries of a directory, in byte order; those of `.` by their names alone.
pub fn entries(directory: &Path) -> Result<Vec<PathBuf>, Failure> {
    let entries = fs::read_dir(directory)
        .and_then(|entries| {
            let paths = entries.map(|entry| entry.map(|entry| entry.path()));
            paths.collect::<io::Result<Vec<_>>>()
        })
        .map_err(|error| failure(directory, &error));
    let own = |path: PathBuf| match path.strip_prefix(".") {
        Ok(name) => name.to_path_buf(),
        Err(_) => path,
    };
    let mut entries: Vec<PathBuf> = entries?.into_iter().map(own).collect();
    entries.sort();
    Ok(entries)
}

/// Writes all files, or none if one cannot be written.
pub fn write_all(files: &[(PathBuf, Vec<u8>)]) -> Result<(), Failure> {
    let mut written = Vec::new();
    let mut write_one = |(path, bytes): &(PathBuf, Vec<u8>)| {
        let file = New::write(path, bytes).map_err(|error| failure(path, &error))?;
        written.push(file);
        Ok(())
    };
    files.iter().try_for_each(&mut write_one)?;
    for file in written {
        let path = file.path.clone();
        file.put_in_place()
            .map_err(|error| failure(&path, &error))?;
    }
    Ok(())
}

/// A file that is written beside the one whose place it takes; removed if it does not.
struct New {
    path: PathBuf,
    beside: Option<PathBuf>,
}

impl New {
    fn write(path: &Path, bytes: &[u8]) -> io::Result<New> {
        // A link is written through, and what is no plain file is written as it is.
        let path = fs::canonicalize(path).unwrap_or_else(|_| path.to_path_buf());
        let old = fs::metadata(&path);
        if old.as_ref().is_ok_and(|old| !old.is_file()) {
            fs::OpenOptions::new()
                .write(true)
                .open(&path)?
                .write_all(bytes)?;
            return Ok(New { path, beside: None });
        }
        let beside = name_beside(&path);
        let new = New {
            path,
            beside: Some(beside.clone()),
        };
        fs::write(&beside, bytes)?;
        if let Ok(old) = old {
            fs::set_permissions(&beside, old.permissions())?;
        }
        Ok(new)
    }

    fn put_in_place(mut self) -> io::Result<()> {
        match self.beside.take() {
            Some(beside) => fs::rename(&beside, &self.path).inspect_err(|_| {
                let _ = fs::remove_file(&beside);
            }),
            None => Ok(()),
        }
    }
}

impl Drop for New {
    fn drop(&mut self) {
        if let Some(beside) = &self.beside {
            // It may not have been made at all.
            let _ = fs::remove_file(beside);
        }
    }
}

fn name_beside(path: &Path) -> PathBuf {
    let mut name = OsString::from(".");
    name.push(path.file_name().unwrap_or_default());
    name.push(format!(".{}", std::process::id()));
    path.with_file_name(name)
}
