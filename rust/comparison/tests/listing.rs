//! The program `listing` against the listing of the reference, from files.

use std::fs;
use std::path::{Path, PathBuf};
use std::process::Command;

use comparison::workloads::all_workloads;
use reference::generate::{case, Case};
use reference::listing;
use reference::sizes::OUTCOME_TARGET;

const CASES: u64 = 2_000;

/// Where the program is built.
fn program() -> PathBuf {
    Path::new(env!("CARGO_MANIFEST_DIR")).join("../../target/bin/listing")
}

/// What the program prints for files, by their names.
fn printed(directory: &Path, files: &[&str]) -> Vec<u8> {
    let output = Command::new(program())
        .args(files)
        .current_dir(directory)
        .output()
        .expect("the program listing is built (examples/listing/run)");
    assert!(
        output.stderr.is_empty(),
        "{}",
        String::from_utf8_lossy(&output.stderr)
    );
    output.stdout
}

/// The listings of a case against the reference's: from the fresh record and from its own, without an answer sheet and with its own.
fn assert_listed(directory: &Path, case: &Case, name: &str) {
    for (name, bytes) in [
        ("text", &case.text),
        ("device", &case.device),
        ("outcome", &case.outcome),
        ("sheet", &case.sheet),
    ] {
        fs::write(directory.join(name), bytes).expect("a file of the case");
    }
    let outcome = Some(&case.outcome[..]);
    let sheet = Some(&case.sheet[..]);
    for (files, outcome, sheet) in [
        (&["text", "device"][..], None, None),
        (&["text", "device", "outcome"], outcome, None),
        (&["text", "device", "outcome", "sheet"], outcome, sheet),
        (&["text", "device", "-", "sheet"], None, sheet),
    ] {
        assert_eq!(
            String::from_utf8_lossy(&printed(directory, files)),
            String::from_utf8_lossy(&listing(&case.text, &case.device, outcome, sheet)),
            "{name} ({}), of {files:?}",
            case.shape
        );
    }
}

/// A directory of a test's own.
fn directory(test: &str) -> PathBuf {
    let directory = Path::new(env!("CARGO_TARGET_TMPDIR")).join(test);
    fs::create_dir_all(&directory).expect("a directory for the files");
    directory
}

#[test]
fn listings() {
    let directory = directory("listings");
    for seed in 0..CASES {
        assert_listed(&directory, &case(seed), &format!("seed {seed}"));
    }
}

#[test]
fn listing_of_the_fullest_record() {
    let full_start = all_workloads()
        .find(|workload| workload.name == "full_start")
        .expect("a workload from the fullest record");
    let case = full_start.case();
    assert_eq!(case.outcome.len(), OUTCOME_TARGET);
    assert_listed(&directory("fullest"), &case, full_start.name);
}
