//! `spillfinch import`.

mod common;

use common::{repository, run_in, Folder};
use std::process::Command;

const RECORDING: &str = "P: /devices/usb1/1-2/tty/ttyUSB0\nN: ttyUSB0\nS: counter\nE: MAJOR=188\n\
    E: MINOR=0\nE: SUBSYSTEM=tty\nE: DEVLINKS=/dev/counter\nE: TAGS=:seat:\n\n\
    P: /devices/usb1/1-2\nE: SUBSYSTEM=usb\nA: serial=RC\\n\nH: descriptors=1201\nH: blob=00\n";

const FORM: &str = "action add\nnode 188 0\nproperty ACTION=add\n\
    property DEVPATH=/devices/usb1/1-2/tty/ttyUSB0\nproperty MAJOR=188\nproperty MINOR=0\n\
    property SUBSYSTEM=tty\ndevice /devices/usb1/1-2/tty/ttyUSB0\n  subsystem tty\n\
    device /devices/usb1/1-2\n  subsystem usb\n  attribute serial=RC\\x0a\n  \
    attribute descriptors=\\x12\\x01\n";

const NOTES: &str = "a.umockdev: /devices/usb1/1-2/tty/ttyUSB0: left out link counter: left by an \
    earlier run of udev\n\
    a.umockdev: /devices/usb1/1-2/tty/ttyUSB0: left out properties DEVLINKS, TAGS: left by an \
    earlier run of udev\n\
    a.umockdev: /devices/usb1/1-2: left out attribute blob: binary, with NUL bytes\n";

#[test]
fn the_first_device_is_printed() {
    let folder = Folder::new("import_print");
    folder.file("a.umockdev", RECORDING);
    folder.run(&["import", "a.umockdev"]).is(0, FORM, NOTES);
    let said = folder.run_with(&["import", "-"], RECORDING);
    said.is(0, FORM, &NOTES.replace("a.umockdev", "-"));
    let said = folder.run(&["import", "a.umockdev:/devices/usb1/1-2"]);
    assert!(
        said.out.contains("\ndevice /devices/usb1/1-2\n"),
        "{}",
        said.out
    );
    assert_eq!(said.err.lines().count(), 1);
}

#[test]
fn every_device_is_written() {
    let folder = Folder::new("import_write");
    let second = "P: /devices/usb1/1-2\nE: SUBSYSTEM=usb\n\nP: /devices/w\u{e4} x\n";
    folder
        .file("a.umockdev", RECORDING)
        .file("b.umockdev", second);
    let said = folder.run(&["import", "a.umockdev", "b.umockdev", "-o", "out/devices"]);
    let written = "out/devices/tty-ttyUSB0.device\nout/devices/usb-1-2.device\n\
        out/devices/usb-1-2-2.device\nout/devices/w___x.device\n";
    let without = "b.umockdev: no attributes, so ATTR and ATTRS find nothing\n";
    said.is(0, written, &format!("{NOTES}{without}"));
    assert_eq!(folder.read("out/devices/tty-ttyUSB0.device"), FORM);
    let said = folder.run(&["import", "a.umockdev", "-o", "out/devices"]);
    let there = "spillfinch: out/devices/tty-ttyUSB0.device: the file exists; --force overwrites it\n";
    said.is(2, "", there);
    let said = folder.run(&[
        "import",
        "--force",
        "a.umockdev:/devices/usb1/1-2",
        "-o",
        "out/devices",
    ]);
    assert_eq!(
        (said.status, said.out.as_str()),
        (0, "out/devices/usb-1-2.device\n")
    );
    for name in ["tty-ttyUSB0", "usb-1-2", "usb-1-2-2", "w___x"] {
        let file = format!("out/devices/{name}.device");
        assert_eq!(folder.run(&["show", &file]).status, 0, "{name}");
    }
}

#[test]
fn what_rules_name_is_kept() {
    let folder = Folder::new("import_rules");
    let attributes: String = (0..40).map(|n| format!("A: a{n}={n}\n")).collect();
    folder.file("many.umockdev", format!("P: /devices/a\n{attributes}"));
    folder.file("last.rules", "ATTR{a39}==\"39\", bad\n");
    let said = folder.run(&["import", "many.umockdev", "--rules", "last.rules"]);
    assert!(
        said.out
            .ends_with("  attribute a29=29\n  attribute a39=39\n"),
        "{}",
        said.out
    );
    let said = folder.run(&["import", "many.umockdev", "--rules", "none.rules"]);
    said.is(2, "", "spillfinch: none.rules: No such file or directory\n");
}

#[test]
fn recordings_at_fault() {
    let folder = Folder::new("import_faults");
    let long = format!("P: /{}\n\nP: /short\n", "p".repeat(256));
    folder
        .file("a.umockdev", RECORDING)
        .file("form", "device /a\n")
        .file("broken", "P: /a\nE: b\n")
        .file("long", &long)
        .file("nul", b"P: /a\0b\nA: c=d\n")
        .file("slash", "P: a\nA: c=d\n");
    for (arguments, message) in [
        (&["none"][..], "none: No such file or directory"),
        (
            &["form"],
            "form: no recording, which begins with a line `P: PATH`",
        ),
        (&["broken"], "broken:2: `E:` takes name=value"),
        (
            &["a.umockdev:/devices/x"],
            "a.umockdev: no device /devices/x",
        ),
        (
            &["a.umockdev", "a.umockdev"],
            "several recordings are written to a directory: -o DIR",
        ),
        (&["a.umockdev", "-o", "form"], "form: File exists"),
    ] {
        let said = folder.run(&[&["import"], arguments].concat());
        said.is(2, "", &format!("spillfinch: {message}\n"));
    }
    let refused = "refused 3: the device record is faulty";
    let said = folder.run(&["import", "slash"]);
    said.is(1, "", &format!("slash: a: {refused}\n"));
    let said = folder.run(&["import", "nul"]);
    said.is(1, "", &format!("nul: /a\\x00b: {refused}\n"));
    let said = folder.run(&["import", "long", "-o", "out"]);
    assert_eq!((said.status, said.out.as_str()), (1, "out/short.device\n"));
    assert!(
        said.err.ends_with(": the path is longer than 256 bytes\n"),
        "{}",
        said.err
    );
    assert!(folder.has("out/short.device"));
}

/// What a tool prints about this machine.
fn recorded(tool: &str, arguments: &[&str]) -> Vec<u8> {
    let output = Command::new(tool).args(arguments).output();
    let output = output.unwrap_or_else(|error| panic!("{tool} is needed here: {error}"));
    assert!(output.status.success(), "{tool}: {output:?}");
    output.stdout
}

#[test]
fn devices_of_this_machine() {
    let folder = Folder::new("import_machine");
    let lo = recorded("umockdev-record", &["/sys/class/net/lo"]);
    folder.file("lo.umockdev", lo).file(
        "lo.rules",
        "SUBSYSTEM==\"net\", ATTR{type}==\"772\", TAG+=\"loop\"\n",
    );
    let said = folder.run(&["run", "lo.rules", "--device", "lo.umockdev"]);
    assert_eq!(said.status, 0, "{}", said.err);
    assert!(
        said.out.contains("\nenv DEVPATH=/devices/virtual/net/lo\n"),
        "{}",
        said.out
    );
    assert!(said.out.ends_with("\ntag loop\n"), "{}", said.out);

    for (file, recording) in [
        ("all.umockdev", recorded("umockdev-record", &["--all"])),
        ("database", recorded("udevadm", &["info", "--export-db"])),
    ] {
        folder.file(file, recording);
        let out = format!("{file}.d");
        let said = folder.run(&["import", file, "-o", &out]);
        assert_eq!(said.status, 0, "{}", said.err);
        let written: Vec<&str> = said.out.lines().collect();
        assert!(!written.is_empty());
        let mut arguments = vec!["run", "lo.rules"];
        for device in &written {
            arguments.extend(["--device", device]);
        }
        let said = folder.run(&arguments);
        assert_eq!(said.status, 0, "{}", said.err);
        assert_eq!(said.out.matches("visited 1\n").count(), written.len());
    }
}

#[test]
fn the_example_is_the_text_form_beside_it() {
    let said = run_in(
        &repository(),
        &["import", "examples/devices/counter.umockdev"],
        b"",
    );
    let form = std::fs::read_to_string(repository().join("examples/devices/counter.device"));
    let form = form.expect("the text form of the counter");
    for line in form.lines().filter(|line| !line.starts_with('#')) {
        assert!(said.out.lines().any(|other| other == line), "{line}");
    }
}
