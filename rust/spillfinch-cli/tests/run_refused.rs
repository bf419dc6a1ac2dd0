//! `spillfinch run` where it refuses, and where files cannot be read.

mod common;

use common::{run_folder as folder, LISTING};

#[test]
fn refusals() {
    let folder = folder("run_refusals");
    let long = "%p".repeat(20);
    folder
        .file("goto.rules", "# jumps\nGOTO=\"end\"\n")
        .file("link.rules", "\nSYMLINK+=\"../x\"\n")
        .file("long.rules", "#".repeat(32_769))
        .file("close.rules", format!("RUN+=\"{long}\"\n"))
        .file("start", "program 3 a\n");
    let run = |rules: &str, more: &[&str]| {
        let fixed = ["run", rules, "--device", "tty.device"];
        folder.run(&[&fixed[..], more].concat())
    };
    run("goto.rules", &[]).is(
        1,
        "refused 19 line 2\n",
        "goto.rules:2: refused 19: GOTO without a later LABEL\n",
    );
    run("link.rules", &[]).is(
        1,
        "refused 31 line 2\n",
        "link.rules:2: refused 31: link name over 128 bytes, or absolute, or with an empty, `.` or `..` part, for tty.device\n",
    );
    run("long.rules", &[]).is(
        1,
        "refused 2 line 0\n",
        "long.rules: refused 2: the rules text is longer than 32768 bytes\n",
    );
    run("close.rules", &[]).is(
        1,
        "refused 30 line 0\n",
        "close.rules: refused 30: substituted text longer than 512 bytes, for tty.device\n",
    );
    run("rope.rules", &["--from", "start"]).is(
        1,
        "refused 4 line 0\n",
        "start: refused 4: the outcome record is faulty\n",
    );
    let two = folder.run(&[
        "run",
        "goto.rules",
        "--device",
        "tty.device",
        "--device",
        "tty.device",
    ]);
    two.is(
        1,
        "device tty.device\nrefused 19 line 2\ndevice tty.device\nrefused 19 line 2\n",
        "goto.rules:2: refused 19: GOTO without a later LABEL\n",
    );
}

#[test]
fn answer_sheets_that_are_refused() {
    let folder = folder("run_sheet_refused");
    folder
        .file("ask.rules", "\nPROGRAM==\"id %k\", TAG+=\"t\"\n")
        .file("long.rules", format!("PROGRAM==\"{}\"\n", "%p".repeat(20)))
        .file("sheet", "command id\nsuccess\n")
        .file("cut", b"\x01\x81")
        .file("twice", b"\x02\x00\x20\x00x\x80\x20\x00x")
        .file("bad", "command id\nsucces\n");
    let run = |rules: &str, more: &[&str]| {
        let fixed = ["run", rules, "--device", "tty.device"];
        folder.run(&[&fixed[..], more].concat())
    };
    run("ask.rules", &[]).is(
        1,
        "refused 35 line 2\n",
        "ask.rules:2: refused 35: command that is not on the answer sheet; no sheet is given, \
         for tty.device\n",
    );
    run("ask.rules", &["--sheet", "sheet"]).is(
        1,
        "refused 35 line 2\n",
        "ask.rules:2: refused 35: command that is not on the answer sheet, for tty.device\n",
    );
    run("long.rules", &["--sheet", "sheet"]).is(
        1,
        "refused 30 line 1\n",
        "long.rules:1: refused 30: substituted text longer than 512 bytes, for tty.device\n",
    );
    for sheet in ["cut", "twice"] {
        run("rope.rules", &["--sheet", sheet]).is(
            1,
            "refused 6 line 0\n",
            &format!("{sheet}: refused 6: the answer sheet is faulty\n"),
        );
    }
    run("rope.rules", &["--sheet", "bad"]).is(
        2,
        "",
        "spillfinch: bad:2: unknown word `succes`; an answer sheet has command, success, failure \
         and output\n",
    );
    run("rope.rules", &["--sheet", "none"]).is(
        2,
        "",
        "spillfinch: none: No such file or directory\n",
    );
}

#[test]
fn a_refused_run_writes_no_record() {
    let folder = folder("run_no_record");
    folder
        .file("bad.rules", "GOTO=\"end\"\n")
        .file("out", "as it was");
    let said = folder.run(&[
        "run",
        "bad.rules",
        "--device",
        "tty.device",
        "--record",
        "out",
    ]);
    assert_eq!(said.status, 1);
    assert_eq!(folder.read("out"), "as it was");
    let said = folder.run(&[
        "run",
        "rope.rules",
        "--device",
        "tty.device",
        "--record",
        "no/out",
    ]);
    said.is(2, "", "spillfinch: no/out: No such file or directory\n");
    let said = folder.run(&[
        "run",
        "rope.rules",
        "--device",
        "tty.device",
        "--record",
        "/dev/null",
    ]);
    said.is(0, LISTING, "");
}

#[test]
fn usage_that_no_table_of_words_tells() {
    let folder = folder("run_usage");
    let two = ["--device", "tty.device", "--device", "tty.device"];
    let said = folder.run(&[&["run", "rope.rules", "--record", "out"], &two[..]].concat());
    said.is(2, "", "spillfinch: --record takes one device\n");
    let said = folder.run(&[
        "run",
        "rope.rules",
        "--device",
        "tty.device",
        "--record",
        "-",
    ]);
    said.is(2, "", "spillfinch: --record takes the name of a file\n");
}

#[test]
fn files_that_cannot_be_read() {
    let folder = folder("run_unreadable");
    folder
        .file("bad.device", "device /a\n  attribut serial=1\n")
        .file("bad.umockdev", "P: /a\nE: MAJOR\n")
        .file("bad-node.umockdev", "P: /a\nE: MAJOR=x\nE: MINOR=0\n")
        .file("bad.outcome", "mode 888\n")
        .file("empty", "");
    let run = |rules: &str, device: &str, more: &[&str]| {
        let fixed = ["run", rules, "--device", device];
        folder.run(&[&fixed[..], more].concat())
    };
    for (rules, device, message) in [
        (
            "none.rules",
            "tty.device",
            "none.rules: No such file or directory",
        ),
        ("rope.rules", "none", "none: No such file or directory"),
        (
            "rope.rules",
            "none:/devices/a",
            "none:/devices/a: No such file or directory",
        ),
        (
            "rope.rules",
            "bad.device",
            "bad.device:2: unknown word `attribut`; a device has action, node, property, device, \
             subsystem, driver and attribute",
        ),
        ("rope.rules", "empty", "empty:1: no `device`"),
        (
            "rope.rules",
            "bad.umockdev",
            "bad.umockdev:2: `E:` takes name=value",
        ),
        (
            "rope.rules",
            "bad-node.umockdev",
            "bad-node.umockdev: /a: `x` is no number from 0 to 4095",
        ),
        (
            "rope.rules",
            "counter.umockdev:/devices/none",
            "counter.umockdev: no device /devices/none",
        ),
        (
            "rope.rules",
            "tty.device:/devices/usb1",
            "tty.device: only a recording holds several devices",
        ),
    ] {
        run(rules, device, &[]).is(2, "", &format!("spillfinch: {message}\n"));
    }
    run("rope.rules", "tty.device", &["--from", "bad.outcome"]).is(
        2,
        "",
        "spillfinch: bad.outcome:1: `mode` takes 1 to 4 octal digits\n",
    );
}
