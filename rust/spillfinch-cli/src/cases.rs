//! Folders of cases: rules, devices and the listing that is expected of them.

use std::path::{Path, PathBuf};

use crate::report::Failure;
use crate::running::{head, Beside, Rules};
use crate::{device, files, rules_files};

/// The name of the expected listing in a case.
pub const EXPECTED: &str = "expected";
/// The name of the outcome record that a case starts from, if not from the fresh one.
const START: &str = "from";
/// The name of the answer sheet of a case, if it has one.
const SHEET: &str = "sheet";
const DEVICES: [&str; 2] = [".device", ".umockdev"];

/// A folder with devices, and the rules files that are run on them.
#[derive(Debug)]
pub struct Case {
    pub folder: PathBuf,
    rules: Vec<PathBuf>,
    devices: Vec<PathBuf>,
}

/// What a case gives now.
#[derive(Debug, Default)]
pub struct Outcome {
    pub listing: String,
    /// What of the recordings is not in the records.
    pub left_out: Vec<String>,
    /// What is refused, with its file and line.
    pub refused: Vec<String>,
}

/// The cases of a folder and of those in it. One that cannot be read is told in its place.
pub fn find(folder: &Path) -> Result<Vec<Result<Case, Failure>>, Failure> {
    let mut cases = Vec::new();
    add_cases(folder, &[], &mut cases)?;
    Ok(cases)
}

fn add_cases(
    folder: &Path,
    above: &[PathBuf],
    cases: &mut Vec<Result<Case, Failure>>,
) -> Result<(), Failure> {
    let own = rules_files::in_directory(folder)?;
    let rules = if own.is_empty() { above } else { &own };
    let devices = files::list(folder, &DEVICES)?;
    if !devices.is_empty() || folder.join(EXPECTED).exists() {
        cases.push(case(folder, rules, devices));
    }
    for entry in files::entries(folder)? {
        if entry.is_dir() && !entry.is_symlink() {
            add_cases(&entry, rules, cases)?;
        }
    }
    Ok(())
}

fn of_folder(folder: &Path, message: &str) -> Failure {
    Failure(format!("{}: {message}", files::shown(folder)))
}

fn case(folder: &Path, rules: &[PathBuf], devices: Vec<PathBuf>) -> Result<Case, Failure> {
    if devices.is_empty() {
        let message = "a listing is expected, but no file ends in .device or .umockdev";
        return Err(of_folder(folder, message));
    }
    if rules.is_empty() {
        return Err(of_folder(
            folder,
            "no rules file here, nor above in the folder that is tested",
        ));
    }
    Ok(Case {
        folder: folder.to_path_buf(),
        rules: rules.to_vec(),
        devices,
    })
}

impl Case {
    pub fn expected(&self) -> PathBuf {
        self.folder.join(EXPECTED)
    }

    /// Runs the rules on each device of the case.
    pub fn run(&self) -> Result<Outcome, Failure> {
        let (start, sheet) = (self.folder.join(START), self.folder.join(SHEET));
        let beside = Beside {
            start: start.exists().then_some(&start),
            sheet: sheet.exists().then_some(&sheet),
        };
        let rules = Rules::read(&self.rules, beside)?;
        let text = rules.text();
        let mut devices = Vec::new();
        for path in &self.devices {
            devices.push(device::read(path.as_os_str(), &text)?);
        }
        let runs = rules.run_each(&devices).into_iter().zip(devices);
        let mut outcome = Outcome::default();
        for (path, (given, device)) in self.devices.iter().zip(runs) {
            if self.devices.len() > 1 {
                let name = path.file_name().map(Path::new).unwrap_or(path);
                outcome.listing += &head(&files::shown(name));
                outcome.listing.push('\n');
            }
            outcome.listing += &given.listing;
            outcome.refused.extend(given.record.err());
            outcome.left_out.extend(device.left_out);
        }
        Ok(outcome)
    }
}
