//! Where rules files are found, and the ranks of their directories.

use std::fs;
use std::path::{Path, PathBuf};

use spillfinch::Rank;

use crate::files;
use crate::report::Failure;

/// The directories of a box that hold rules files. Of two that end alike the longer one comes
/// first.
const DIRECTORIES: [(&str, Rank); 5] = [
    ("etc/udev/rules.d", Rank::Etc),
    ("run/udev/rules.d", Rank::Run),
    ("usr/local/lib/udev/rules.d", Rank::UsrLocalLib),
    ("usr/lib/udev/rules.d", Rank::Lib),
    ("lib/udev/rules.d", Rank::Lib),
];

/// The rank of a file by the directory in its path; etc if that is none of a box.
pub fn rank_of(file: &Path) -> Rank {
    let directory = file.parent().unwrap_or(Path::new(""));
    DIRECTORIES
        .iter()
        .find(|(ending, _)| directory.ends_with(ending))
        .map_or(Rank::Etc, |(_, rank)| *rank)
}

/// The rules files of a directory. If it is the root of a box, those are the ones of its
/// directories, too.
pub fn in_directory(directory: &Path) -> Result<Vec<PathBuf>, Failure> {
    let mut found = files::list(directory, &[".rules"])?;
    let mut seen = Vec::new();
    for (below, _) in DIRECTORIES {
        let below = directory.join(below);
        if !below.is_dir() {
            continue;
        }
        // On most boxes lib is a link to usr/lib.
        let real = fs::canonicalize(&below).map_err(|error| files::failure(&below, &error))?;
        if !seen.contains(&real) {
            found.append(&mut files::list(&below, &[".rules"])?);
            seen.push(real);
        }
    }
    Ok(found)
}

/// Those that some paths name, the ones of a directory in its place.
pub fn of_paths(paths: &[&PathBuf]) -> Result<Vec<PathBuf>, Failure> {
    let mut found = Vec::new();
    for &path in paths {
        if files::is_standard_input(path) || !path.is_dir() {
            found.push(path.clone());
            continue;
        }
        let mut rules = in_directory(path)?;
        if rules.is_empty() {
            let path = files::shown(path);
            return Err(Failure(format!("{path}: no file here ends in .rules")));
        }
        found.append(&mut rules);
    }
    Ok(found)
}
