//! Damaged files: every command ends by itself, says something, and leaves nothing behind.

mod common;

use common::{repository, Folder, DEVICE, RULES};
use recordings::form::read_sheet;
use reference::generate::case;
use std::fs;

const SHEET: &str = "command id ttyUSB0\n  success\n  output RC-0417\ncommand lamp\n  failure\n";

/// A few bytes of a file changed, cut off or put in, by a number that decides where.
fn damaged(file: &[u8], seed: usize) -> Vec<u8> {
    let mut bytes = file.to_vec();
    let place = seed.wrapping_mul(2_654_435_761) % bytes.len().max(1);
    match seed % 4 {
        0 => bytes.truncate(place),
        1 => bytes[place] = (seed >> 2) as u8,
        2 => bytes.insert(place, (seed >> 3) as u8),
        _ => drop(bytes.drain(place..(place + 3).min(bytes.len()))),
    }
    bytes
}

#[test]
fn every_command_ends_well_or_says_why() {
    let folder = Folder::new("damaged");
    folder.file("good.rules", RULES).file("good.device", DEVICE);
    let counter = fs::read(repository().join("examples/devices/counter.umockdev"));
    let counter = counter.expect("the recording");
    let sheet = read_sheet(SHEET.as_bytes()).expect("a sound form");
    let sheet = sheet.encode().expect("a small sheet");
    let mut ends = [0; 3];
    for seed in 0..120 {
        let packed = damaged(&case(seed as u64).device, seed);
        let outcome = damaged(&case(seed as u64).outcome, seed);
        folder
            .file("rules", damaged(RULES.as_bytes(), seed))
            .file("packed", packed)
            .file("outcome", outcome)
            .file("sheet", damaged(&sheet, seed))
            .file("sheet-form", damaged(SHEET.as_bytes(), seed))
            .file("form", damaged(DEVICE.as_bytes(), seed))
            .file("recording", damaged(&counter, seed));
        for arguments in [
            &["check", "rules"][..],
            &["check", "packed"],
            &["run", "rules", "--device", "good.device"],
            &["run", "good.rules", "--device", "packed", "--record", "out"],
            &[
                "run",
                "good.rules",
                "--device",
                "form",
                "--action",
                "change",
            ],
            &["run", "good.rules", "--device", "recording"],
            &[
                "run",
                "good.rules",
                "--device",
                "good.device",
                "--from",
                "outcome",
            ],
            &[
                "run",
                "good.rules",
                "--device",
                "good.device",
                "--sheet",
                "sheet",
            ],
            &[
                "run",
                "good.rules",
                "--device",
                "good.device",
                "--sheet",
                "sheet-form",
            ],
            &["show", "packed"],
            &["show", "form"],
            &["show", "recording"],
            &["import", "recording"],
            &[
                "import",
                "recording",
                "--force",
                "-o",
                "out.d",
                "--rules",
                "rules",
            ],
        ] {
            let said = folder.run(arguments);
            assert!(
                (0..=2).contains(&said.status),
                "seed {seed}, {arguments:?}: {}",
                said.err
            );
            assert!(
                !said.err.contains("panicked"),
                "seed {seed}, {arguments:?}: {}",
                said.err
            );
            ends[said.status as usize] += 1;
            match said.status {
                0 => assert!(!said.out.is_empty()),
                1 => assert!(!said.out.is_empty() || !said.err.is_empty()),
                _ => {
                    assert_eq!(said.out, "", "seed {seed}, {arguments:?}");
                    assert!(said.err.starts_with("spillfinch: "), "{}", said.err);
                    assert_eq!(said.err.lines().count(), 1, "{}", said.err);
                }
            }
        }
    }
    assert!(ends.iter().all(|count| *count > 50), "{ends:?}");
    let hidden = folder
        .names()
        .into_iter()
        .filter(|name| name.starts_with('.'));
    assert_eq!(hidden.count(), 0, "a file was half written");
}
