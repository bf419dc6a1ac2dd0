//! `spillfinch run`.

mod common;

use common::{run_folder as folder, DEVICE, LISTING, RULES};

const COUNTER: &str = "/devices/pci0000:00/0000:00:14.0/usb1/1-2/1-2:1.0/ttyUSB0/tty/ttyUSB0";

#[test]
fn the_listing_of_a_text_form() {
    let folder = folder("run_text_form");
    let said = folder.run(&["run", "rope.rules", "--device", "tty.device"]);
    said.is(0, LISTING, "");
}

#[test]
fn standard_input() {
    let folder = folder("run_input");
    let said = folder.run_with(&["run", "-", "--device", "tty.device"], RULES);
    said.is(0, LISTING, "");
    let said = folder.run_with(&["run", "rope.rules", "--device", "-"], DEVICE);
    said.is(0, LISTING, "");
    let said = folder.run_with(&["run", "-", "--device", "-"], RULES);
    said.is(2, "", "spillfinch: standard input can be read only once\n");
}

#[test]
fn records_are_written_and_taken_up() {
    let folder = folder("run_records");
    folder.file("more.rules", "SYMLINK+=\"second\", TAG+=\"seen\"\n");
    let said = folder.run(&[
        "run",
        "rope.rules",
        "--device",
        "tty.device",
        "--record",
        "out",
    ]);
    said.is(0, LISTING, "");
    let said = folder.run(&[
        "run",
        "more.rules",
        "--device",
        "tty.device",
        "--from",
        "out",
    ]);
    let untried = LISTING.replace("tried 2", "tried 0");
    said.is(0, &format!("{untried}link second\ntag seen\n"), "");
    folder.file("start", "closed links\nlink kept\n");
    let said = folder.run(&[
        "run",
        "more.rules",
        "--device",
        "tty.device",
        "--from",
        "start",
    ]);
    said.is(
        0,
        "visited 1\ntried 0\npriority 0\nlink kept\ntag seen\n",
        "",
    );
    assert_eq!(folder.names().len(), 6, "no other file is left");
}

#[test]
fn an_answer_sheet_as_text_and_packed() {
    let folder = folder("run_sheet");
    folder
        .file(
            "ask.rules",
            "PROGRAM==\"id %k\", RESULT==\"RC-*\", SYMLINK+=\"counter/%c\"\n",
        )
        .file(
            "sheet",
            "command id ttyUSB0\n  success\n  output RC-0417\\x0a\n",
        )
        .file(
            "packed",
            b"\x02\x00\x20\x00x\x81\x40\x40id ttyUSB0RC-0417\n",
        );
    for sheet in ["sheet", "packed"] {
        let said = folder.run(&[
            "run",
            "ask.rules",
            "--device",
            "tty.device",
            "--sheet",
            sheet,
        ]);
        said.is(
            0,
            "visited 1\ntried 0\npriority 0\nlink counter/RC-0417\n",
            "",
        );
    }
    // The output is kept in the record.
    folder
        .file("later.rules", "RESULT==\"RC-0417\", TAG+=\"known\"\n")
        .file("empty", "# nothing was asked\n");
    let said = folder.run(&[
        "run",
        "ask.rules",
        "--device",
        "tty.device",
        "--sheet",
        "sheet",
        "--record",
        "out",
    ]);
    assert_eq!(said.status, 0, "{}", said.err);
    for sheet in [&[][..], &["--sheet", "empty"]] {
        let fixed = [
            "run",
            "later.rules",
            "--device",
            "tty.device",
            "--from",
            "out",
        ];
        folder.run(&[&fixed[..], sheet].concat()).is(
            0,
            "visited 1\ntried 0\npriority 0\nlink counter/RC-0417\ntag known\n",
            "",
        );
    }
}

#[test]
fn a_packed_record_is_a_device() {
    let folder = folder("run_packed");
    let packed = b"\x10\x10\xbc\x00\x00\x00\x00\x0a\x86\x00\x00/devices/usb1/ttyUSB0tty";
    folder.file("packed", packed);
    folder.file("all.rules", "SYMLINK+=\"%k-%M\"\n");
    let said = folder.run(&["run", "all.rules", "--device", "packed"]);
    said.is(0, "visited 1\ntried 0\npriority 0\nlink ttyUSB0-188\n", "");
    let said = folder.run(&[
        "run",
        "all.rules",
        "--device",
        "packed",
        "--action",
        "remove",
    ]);
    said.is(0, "visited 1\ntried 0\npriority 0\nlink ttyUSB0-188\n", "");
    folder.file("damaged", &packed[..20]);
    for arguments in [
        &["--device", "damaged"][..],
        &["--device", "damaged", "--action", "add"],
    ] {
        let said = folder.run(&[&["run", "all.rules"], arguments].concat());
        said.is(
            1,
            "refused 3 line 0\n",
            "damaged: refused 3: the device record is faulty\n",
        );
    }
}

#[test]
fn devices_of_a_recording() {
    let folder = folder("run_recording");
    folder.file(
        "one.rules",
        "ENV{ACTION}==\"remove\", ACTION==\"remove\", TAG+=\"gone\"\n",
    );
    let one = "counter.umockdev:/devices/pci0000:00/0000:00:14.0/usb1/1-2";
    let said = folder.run(&["run", "rope.rules", "--device", "counter.umockdev"]);
    let properties = format!(
        "env ACTION=add\nenv DEVPATH={COUNTER}\nenv DEVNAME=/dev/ttyUSB0\nenv MAJOR=188\n\
         env MINOR=0\nenv SUBSYSTEM=tty\n"
    );
    let farther = LISTING.replace("tried 2", "tried 4");
    said.is(0, &format!("{farther}{properties}"), "");
    let said = folder.run(&[
        "run",
        "one.rules",
        "--action=remove",
        "--device",
        one,
        "--device",
        "tty.device",
    ]);
    let expected = format!(
        "device {one}\nvisited 1\ntried 0\npriority 0\nenv ACTION=remove\n\
         env DEVPATH=/devices/pci0000:00/0000:00:14.0/usb1/1-2\nenv DEVNAME=/dev/bus/usb/001/002\n\
         env DEVTYPE=usb_device\nenv DRIVER=usb\nenv MAJOR=189\nenv MINOR=1\nenv SUBSYSTEM=usb\n\
         tag gone\ndevice tty.device\nvisited 1\ntried 0\npriority 0\n"
    );
    said.is(0, &expected, "");
}

#[test]
fn what_rules_name_is_kept() {
    let folder = folder("run_named");
    let attributes: String = (0..40).map(|n| format!("A: a{n}={n}\n")).collect();
    folder.file("many.umockdev", format!("P: /devices/a\n{attributes}"));
    folder.file("last.rules", "ATTR{a39}==\"39\", SYMLINK+=\"$attr{a38}\"\n");
    let said = folder.run(&["run", "last.rules", "--device", "many.umockdev"]);
    assert!(said.out.contains("link 38\n"), "{}", said.out);
    assert_eq!(
        said.err,
        "many.umockdev: /devices/a: left out attributes a29, a30, a31, a32, a33, a34, a35, a36, \
         a37: a device has at most 31\n"
    );
}

/// Names that are no readable text are shown escaped, the same everywhere.
#[test]
fn odd_names() {
    let folder = folder("run_odd");
    folder
        .file("a\nb.device", DEVICE)
        .file("\u{e9}\\.device", DEVICE);
    let said = folder.run(&[
        "run",
        "rope.rules",
        "--device",
        "a\nb.device",
        "--device",
        "\u{e9}\\.device",
    ]);
    let expected = format!("device a\\x0ab.device\n{LISTING}device \u{e9}\\.device\n{LISTING}");
    said.is(0, &expected, "");
    let said = folder.run(&["show", "a\nc.device"]);
    said.is(
        2,
        "",
        "spillfinch: a\\x0ac.device: No such file or directory\n",
    );
}
