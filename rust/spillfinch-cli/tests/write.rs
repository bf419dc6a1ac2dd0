//! `spillfinch write`.

mod common;

use common::Folder;

/// A site file: odd spacing, a comment, joined lines, values in both forms.
const SITE: &str = "# Counters of the ropeway\n\n  KERNEL == \"ttyUSB[0-9]*\" ,\tATTRS{serial}==\"RC-0417\", \\\n    \
    SYMLINK += \"rope/trip0\"\nSYMLINK==\"rope/*\", ENV{note}=e\"a \\\"b\\\"\\n\", ENV{dir}=e\"c\\x3a\\\\\"\n";

const WRITTEN: &str =
    "KERNEL==\"ttyUSB[0-9]*\",ATTRS{serial}==\"RC-0417\",SYMLINK+=\"rope/trip0\"\n\
    SYMLINK==\"rope/*\",ENV{note}=e\"a \\\"b\\\"\\n\",ENV{dir}=e\"c:\\\\\"\n";

#[test]
fn rules_written_back() {
    let folder = Folder::new("write_back");
    folder
        .file("site.rules", SITE)
        .file("b/none.rules", "# c\n");
    folder.run(&["write", "site.rules"]).is(0, WRITTEN, "");
    folder.run_with(&["write", "-"], SITE).is(0, WRITTEN, "");
    folder.run_with(&["write", "-"], WRITTEN).is(0, WRITTEN, "");
    folder.run(&["write", "b", "site.rules"]).is(0, WRITTEN, "");
    assert_eq!(folder.read("site.rules"), SITE);
}

#[test]
fn files_that_would_change() {
    let folder = Folder::new("write_check");
    folder.file("a.rules", SITE).file("b.rules", WRITTEN);
    let said = folder.run(&["write", "--check", "."]);
    said.is(
        1,
        "a.rules would change\n2 files: 1 would change, 1 as before\n",
        "",
    );
    let said = folder.run(&["write", "--check", "b.rules"]);
    said.is(0, "1 file: 0 would change, 1 as before\n", "");
    let said = folder.run_with(&["write", "--check", "-"], SITE);
    said.is(
        1,
        "- would change\n1 file: 1 would change, 0 as before\n",
        "",
    );
    assert_eq!(folder.read("a.rules"), SITE);
}

#[test]
fn files_written_in_place() {
    let folder = Folder::new("write_in_place");
    folder.file("a.rules", SITE).file("b.rules", WRITTEN);
    let said = folder.run(&["write", "--in-place", "."]);
    said.is(0, "written a.rules\n2 files: 1 written, 1 as before\n", "");
    assert_eq!(folder.read("a.rules"), WRITTEN);
    let said = folder.run(&["write", "--in-place", "."]);
    said.is(0, "2 files: 0 written, 2 as before\n", "");
    assert_eq!(folder.names(), ["a.rules", "b.rules"]);
    let said = folder.run_with(&["write", "--in-place", "-"], SITE);
    said.is(
        2,
        "",
        "spillfinch: standard input cannot be written in place\n",
    );
}

/// If one file is refused, none is printed or written.
#[test]
fn refused_files() {
    let folder = Folder::new("write_refused");
    folder
        .file("a.rules", SITE)
        .file("b.rules", "#\nGOTO=\"x\"\n");
    let message = "b.rules:2: refused 19: GOTO without a later LABEL\n";
    for arguments in [
        &["write", "."][..],
        &["write", "--check", "."],
        &["write", "--in-place", "."],
    ] {
        folder.run(arguments).is(1, "", message);
    }
    assert_eq!(folder.read("a.rules"), SITE);
    folder
        .run(&["write", "c.rules"])
        .is(2, "", "spillfinch: c.rules: No such file or directory\n");
}

#[test]
fn texts_that_are_too_long() {
    let folder = Folder::new("write_long");
    let long = "#".repeat(32_769);
    let said = folder.run_with(&["write", "-"], long);
    said.is(
        1,
        "",
        "-: refused 2: the rules text is longer than 32768 bytes\n",
    );
    let tight = format!("TAG=\"{}\"\n", "a".repeat(57)).repeat(511)
        + &format!("TAG=\"{}\"", "a".repeat(58));
    assert_eq!(tight.len(), 32_768);
    let said = folder.run_with(&["write", "-"], tight);
    said.is(
        1,
        "",
        "-: refused 2: with its final newline the rules text is longer than 32768 bytes\n",
    );
}
