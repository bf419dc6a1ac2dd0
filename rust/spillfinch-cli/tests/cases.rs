//! `spillfinch test`.

mod common;

use common::{on_terminal, repository, run_in, Folder, DEVICE, LISTING, RULES};
use std::fs;
use std::process::Command;
use std::thread;
use std::time::Duration;

/// Two cases below one rules file.
fn folder(name: &str) -> Folder {
    let folder = Folder::new(name);
    let other = "device /devices/sda\n";
    folder
        .file("rope.rules", RULES)
        .file("rope/tty.device", DEVICE)
        .file("rope/expected", LISTING)
        .file("disk/sda.device", other)
        .file("disk/expected", "visited 1\ntried 0\npriority 0\n")
        .file("notes/readme", "no case");
    folder
}

#[test]
fn cases_that_pass() {
    let folder = folder("test_pass");
    folder
        .run(&["test"])
        .is(0, "2 cases: 2 passed, 0 failed\n", "");
    folder
        .run(&["test", "."])
        .is(0, "2 cases: 2 passed, 0 failed\n", "");
    folder
        .run(&["test", "--update"])
        .is(0, "2 cases: 0 updated, 2 as before\n", "");
}

#[test]
fn a_case_that_fails_is_shown_and_updated() {
    let folder = folder("test_fail");
    folder.file("rope.rules", RULES.replace("0660", "0640"));
    let expected =
        "--- rope/expected\n+++ rope now\n@@ -1,6 +1,6 @@\n visited 1\n tried 2\n priority 0\n\
        -mode 0660\n+mode 0640\n group dialout\n link rope/trip0\n2 cases: 1 passed, 1 failed\n";
    folder.run(&["test"]).is(1, expected, "");
    assert_eq!(folder.read("rope/expected"), LISTING);
    let said = folder.run(&["test", "--update"]);
    said.is(
        0,
        "updated rope/expected\n2 cases: 1 updated, 1 as before\n",
        "",
    );
    assert_eq!(
        folder.read("rope/expected"),
        LISTING.replace("0660", "0640")
    );
    folder
        .run(&["test"])
        .is(0, "2 cases: 2 passed, 0 failed\n", "");
}

#[test]
fn a_new_case() {
    let folder = folder("test_new");
    folder.file("new/tty.device", DEVICE);
    let said = folder.run(&["test"]);
    let shown = LISTING.replace('\n', "\n+");
    let diff = format!("--- new/expected\n+++ new now\n@@ -0,0 +1,6 @@\n+{shown}");
    let out = format!(
        "{}3 cases: 2 passed, 1 failed\n",
        diff.trim_end_matches('+')
    );
    said.is(1, &out, "new: no file `expected`; --update writes it\n");
    assert!(!folder.has("new/expected"));
    folder.run(&["test", "--update"]).is(
        0,
        "updated new/expected\n3 cases: 1 updated, 2 as before\n",
        "",
    );
    assert_eq!(folder.read("new/expected"), LISTING);
}

#[test]
fn several_devices_a_start_and_rules_of_its_own() {
    let folder = folder("test_several");
    folder
        .file("both/a.device", DEVICE)
        .file("both/b.device", "device /devices/sda\n")
        .file("both/from", "link kept\n")
        .file("both/own.rules", "TAG+=\"own\"\n")
        .file(
            "both/expected",
            "device a.device\nvisited 1\ntried 0\npriority 0\nlink kept\ntag own\n\
             device b.device\nvisited 1\ntried 0\npriority 0\nlink kept\ntag own\n",
        );
    folder
        .run(&["test"])
        .is(0, "3 cases: 3 passed, 0 failed\n", "");
}

#[test]
fn a_case_with_an_answer_sheet() {
    let folder = folder("test_sheet");
    folder
        .file("ask/tty.device", DEVICE)
        .file("ask/own.rules", "PROGRAM==\"id %k\", TAG+=\"asked\"\n")
        .file("ask/sheet", "command id ttyUSB0\nsuccess\n")
        .file(
            "ask/expected",
            "visited 1\ntried 0\npriority 0\ntag asked\n",
        );
    folder
        .run(&["test"])
        .is(0, "3 cases: 3 passed, 0 failed\n", "");
    folder
        .file("ask/sheet", "command id ttyUSB1\nsuccess\n")
        .file("ask/expected", "refused 35 line 1\n");
    folder
        .run(&["test"])
        .is(0, "3 cases: 3 passed, 0 failed\n", "");
}

#[test]
fn a_refusal_can_be_expected() {
    let folder = folder("test_refused");
    folder
        .file("rope/bad.rules", "GOTO=\"end\"\n")
        .file("rope/expected", "refused 19 line 1\n");
    folder
        .run(&["test"])
        .is(0, "2 cases: 2 passed, 0 failed\n", "");
    folder.file("rope/expected", "");
    let said = folder.run(&["test"]);
    let out = "--- rope/expected\n+++ rope now\n@@ -0,0 +1 @@\n+refused 19 line 1\n\
        2 cases: 1 passed, 1 failed\n";
    said.is(
        1,
        out,
        "rope/bad.rules:1: refused 19: GOTO without a later LABEL\n",
    );
}

#[test]
fn what_recordings_leave_out_is_said() {
    let folder = folder("test_notes");
    folder
        .file("udev/a.umockdev", "P: /devices/sda\nE: TAGS=:a:\n")
        .file(
            "udev/expected",
            "visited 1\ntried 0\npriority 0\nenv ACTION=add\nenv DEVPATH=/devices/sda\n",
        );
    folder.run(&["test", "."]).is(
        0,
        "3 cases: 3 passed, 0 failed\n",
        "udev/a.umockdev: /devices/sda: left out property TAGS: left by an earlier run of udev\n",
    );
}

#[test]
fn cases_that_cannot_be_read() {
    let folder = folder("test_unreadable");
    folder
        .file("broken/a.device", "device\n")
        .file("none/expected", "")
        .file("odd/tty.device", DEVICE)
        .file("odd/expected/x", "")
        .file("start/tty.device", DEVICE)
        .file("start/from", "links a\n")
        .file("rope.rules", RULES.replace("0660", "0640"));
    let errors = "spillfinch: broken/a.device:1: the device has 0 bytes; it takes 1 to 256\n\
        spillfinch: none: a listing is expected, but no file ends in .device or .umockdev\n\
        spillfinch: odd/expected: Is a directory\n\
        spillfinch: start/from:1: unknown word `links`; an outcome has closed, owner, group, mode, \
        priority, watch, nowatch, output, link, property, tag, program and builtin\n";
    let said = folder.run(&["test"]);
    assert_eq!((said.status, said.err.as_str()), (2, errors));
    assert!(
        said.out
            .ends_with("\n6 cases: 1 passed, 1 failed, 4 not read\n"),
        "{}",
        said.out
    );
    assert!(said.out.contains("+mode 0640\n"), "{}", said.out);
    let said = folder.run(&["test", "--update"]);
    said.is(2, "6 cases: nothing updated, 4 not read\n", errors);
    assert_eq!(folder.read("rope/expected"), LISTING);
}

#[test]
fn folders_without_cases() {
    let folder = folder("test_none");
    let message = "spillfinch: notes: no case, which is a folder with a device\n";
    folder.run(&["test", "notes"]).is(2, "", message);
    let message = "spillfinch: absent: No such file or directory\n";
    folder.run(&["test", "absent"]).is(2, "", message);
    // Rules above the folder that is tested are none of it.
    folder.run(&["test", "rope"]).is(
        2,
        "1 case: 0 passed, 0 failed, 1 not read\n",
        "spillfinch: rope: no rules file here, nor above in the folder that is tested\n",
    );
}

#[test]
fn the_examples_pass() {
    let said = run_in(&repository(), &["test", "examples/cases"], b"");
    said.is(0, "3 cases: 3 passed, 0 failed\n", "");
}

/// The first case waits for a pipe that is written late.
#[test]
fn a_long_test_tells_how_far_it_is() {
    let folder = folder("test_progress");
    let pipe = folder.path.join("a/slow.device");
    fs::create_dir_all(folder.path.join("a")).expect("a folder");
    let made = Command::new("mkfifo").arg(&pipe).status();
    assert!(made.expect("mkfifo").success());
    let writer = thread::spawn(move || {
        thread::sleep(Duration::from_millis(1_300));
        fs::write(pipe, DEVICE).expect("the pipe is read");
    });
    let shown = on_terminal(&folder, "test", &[]);
    writer.join().expect("the writer ends");
    let line = "\r\u{1b}[K1 of 3 cases";
    assert!(shown.contains(line), "{shown:?}");
    let erased = shown.rfind("\r\u{1b}[K").expect("the line is erased");
    assert!(
        shown[erased..].contains("3 cases: 2 passed, 1 failed"),
        "{shown:?}"
    );
    // What is not a terminal gets no such line.
    fs::remove_file(folder.path.join("a/slow.device")).expect("the pipe");
    assert_eq!(folder.run(&["test"]).err, "");
}
