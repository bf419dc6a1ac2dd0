//! Who holds a link, as the command tells it.

mod common;

use common::{repository, run_in, Folder};
use std::fs;

const LINKS: &str = "link rope/trip\n  holder examples/link/b\n  other examples/link/a\n\
    link rope/ttyUSB0\n  holder examples/link/a\nlink rope/ttyUSB1\n  holder examples/link/b\n";

fn words(line: &str) -> Vec<&str> {
    line.split(' ').collect()
}

/// The example's devices and rules.
fn folder(name: &str) -> Folder {
    let folder = Folder::new(name);
    for file in ["counters.rules", "a.device", "b.device", "a", "b"] {
        let example = repository().join("examples/link").join(file);
        folder.file(file, fs::read(example).expect("an example"));
    }
    folder
}

#[test]
fn two_counters_claim_one_link() {
    let pairs = "contest examples/link/a examples/link/a.device examples/link/b \
        examples/link/b.device";
    run_in(&repository(), &words(pairs), b"").is(0, LINKS, "");
    let other_way = "contest examples/link/b examples/link/b.device examples/link/a \
        examples/link/a.device";
    let said = run_in(&repository(), &words(other_way), b"");
    assert_eq!(said.status, 0, "{}", said.err);
    let first =
        "link rope/trip\n  holder examples/link/b\n  other examples/link/a\nlink rope/ttyUSB1\n";
    assert!(said.out.starts_with(first), "{}", said.out);
}

#[test]
fn records_as_a_run_leaves_them() {
    let folder = folder("contest_after_run");
    for device in ["a", "b"] {
        let run = format!("run counters.rules --device {device}.device --record {device}.packed");
        let said = folder.run(&words(&run));
        assert_eq!(said.status, 0, "{}", said.err);
    }
    let packed = folder.run(&words("contest a.packed a.device b.packed b.device"));
    let form = folder.run(&words("contest a a.device b b.device"));
    assert_eq!(form.status, 0, "{}", form.err);
    packed.is(
        0,
        &form
            .out
            .replace(" a\n", " a.packed\n")
            .replace(" b\n", " b.packed\n"),
        "",
    );
}

#[test]
fn of_equals_the_first() {
    let folder = folder("contest_equals");
    folder.run(&words("contest a a.device a a.device")).is(
        0,
        "link rope/trip\n  holder a\n  other a\nlink rope/ttyUSB0\n  holder a\n  other a\n",
        "",
    );
    folder.file("low", "priority -2147483648\nlink rope/trip\n");
    folder.file("high", "priority 2147483647\nlink rope/trip\n");
    folder
        .run(&words("contest low a.device high b.device low a.device"))
        .is(
            0,
            "link rope/trip\n  holder high\n  other low\n  other low\n",
            "",
        );
    folder.file("none", "priority 7\n");
    folder.run(&words("contest none a.device")).is(0, "", "");
}

#[test]
fn refused() {
    let folder = folder("contest_refused");
    folder
        .file("bad.device", b"\x10\0\0")
        .file("bad", b"\x20\0\0");
    let run = |line: &str| folder.run(&words(line));
    run("contest a a.device bad b.device b bad.device").is(
        1,
        "",
        "bad: refused 4: the outcome record is faulty\n",
    );
    run("contest a a.device bad bad.device").is(
        1,
        "",
        "bad.device: refused 3: the device record is faulty\n",
    );
    let many = format!("contest{}", " a a.device".repeat(65));
    run(&many).is(
        1,
        "",
        "refused 7: the set is over its size, or is not laid out as one: a contest has at most 64 records, and there are 65\n",
    );
    let most = format!("contest{}", " a a.device".repeat(64));
    assert_eq!(run(&most).status, 0);
}

#[test]
fn holders_of_a_whole_box() {
    let line = "contest --rules examples/ropes/counters.rules examples/ropes/box.umockdev";
    let said = run_in(&repository(), &words(line), b"");
    let holders = repository().join("examples/ropes/holders");
    let holders = fs::read_to_string(holders).expect("an example");
    said.is(0, &holders, "");
    let picked = "/devices/pci0000:00/0000:00:14.0/usb1/1-4/1-4:1.0/ttyUSB2/tty/ttyUSB2";
    let file = format!("examples/ropes/box.umockdev:{picked}");
    let said = run_in(&repository(), &words(&format!("{line}:{picked}")), b"");
    let links = "link rope/trip1\n  holder FILE\nlink counter/2\n  holder FILE\n";
    said.is(0, &links.replace("FILE", &file), "");
}

#[test]
fn devices_as_a_run_leaves_them() {
    let folder = folder("contest_rules");
    let by_rules = folder.run(&words("contest --rules counters.rules a.device b.device"));
    let form = folder.run(&words("contest a a.device b b.device"));
    let named = form.out.replace(" a\n", " a.device\n");
    by_rules.is(0, &named.replace(" b\n", " b.device\n"), "");
    // Only what claims a link counts among the 64.
    folder.file("few.rules", "KERNEL==\"ttyUSB1\", SYMLINK+=\"x\"\n");
    let many = format!(
        "contest --rules few.rules b.device{}",
        " a.device".repeat(200)
    );
    folder
        .run(&words(&many))
        .is(0, "link x\n  holder b.device\n", "");
}

#[test]
fn files_of_a_box() {
    let folder = folder("contest_box");
    let etc = "box/etc/udev/rules.d/70-counters.rules";
    folder
        .file(etc, "SYMLINK+=\"etc\"\n")
        .file(
            "box/lib/udev/rules.d/70-counters.rules",
            "SYMLINK+=\"lib\"\n",
        )
        .file(
            "more.rules",
            "KERNEL==\"ttyUSB1\", OPTIONS=\"link_priority=1\"\n",
        );
    let line = words("contest --rules box --rules more.rules a.device b.device");
    folder
        .run(&line)
        .is(0, "link etc\n  holder b.device\n  other a.device\n", "");
    folder.file(etc, "\nSYMLINK\n");
    folder.run(&line).is(
        1,
        "",
        &format!("{etc}:2: refused 13: operator missing, or not one of this key\n"),
    );
}

#[test]
fn a_refused_run_has_no_holders() {
    let folder = folder("contest_rules_refused");
    folder.file("bad.device", b"\x10\0\0");
    let line = "contest --rules counters.rules a.device bad.device b.device";
    folder.run(&words(line)).is(
        1,
        "",
        "bad.device: refused 3: the device record is faulty\n",
    );
    folder.file("asks.rules", "PROGRAM==\"id %k\", SYMLINK+=\"%c\"\n");
    let line = "contest --rules asks.rules a.device b.device";
    folder.run(&words(line)).is(
        1,
        "",
        "asks.rules:1: refused 35: command that is not on the answer sheet; no sheet is given, for a.device\n\
         asks.rules:1: refused 35: command that is not on the answer sheet; no sheet is given, for b.device\n",
    );
    folder.file(
        "sheet",
        "command id ttyUSB0\n  success\n  output x\ncommand id ttyUSB1\n  success\n  output x\n",
    );
    let line = "contest --rules asks.rules --sheet sheet a.device b.device";
    folder
        .run(&words(line))
        .is(0, "link x\n  holder a.device\n  other b.device\n", "");
}

#[test]
fn bad_usage() {
    let folder = folder("contest_usage");
    let run = |line: &str| folder.run(&words(line));
    run("contest a a.device b").is(2, "", "spillfinch: b: no device follows it\n");
    run("contest a").is(2, "", "spillfinch: a: no device follows it\n");
    assert_eq!(run("contest --rules counters.rules").status, 2);
    assert_eq!(run("contest --sheet a a a.device").status, 2);
    assert_eq!(run("contest").status, 2);
    run("contest gone a.device").is(2, "", "spillfinch: gone: No such file or directory\n");
}
