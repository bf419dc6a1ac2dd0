//! Several rules files: `spillfinch run` and `spillfinch test` of sets.

mod common;

use common::{repository, run_in, Folder, DEVICE, LISTING, RULES};
use std::fs;
use std::os::unix::fs::symlink;

const NOTHING: &str = "priority 0\n";

/// The box of the examples, a case.
fn a_box(name: &str) -> Folder {
    let folder = Folder::new(name);
    let from = repository().join("examples/box");
    let copied = std::process::Command::new("cp")
        .args(["-rT"])
        .args([&from, &folder.path])
        .status();
    assert!(copied.is_ok_and(|status| status.success()));
    folder
}

/// A file in each directory of a box, with the name of the directory as a tag.
fn in_all_ranks(name: &str) -> Folder {
    let folder = Folder::new(name);
    folder.file("tty.device", DEVICE);
    for (directory, tag) in [
        ("etc", "etc"),
        ("run", "run"),
        ("usr/local/lib", "local"),
        ("lib", "lib"),
    ] {
        let path = format!("{directory}/udev/rules.d/10-a.rules");
        folder.file(&path, format!("TAG+=\"{tag}\"\n"));
    }
    folder
}

fn tagged(tag: &str) -> String {
    format!("visited 1\ntried 0\n{NOTHING}tag {tag}\n")
}

#[test]
fn the_box_of_the_examples() {
    let root = repository();
    let arguments = [
        "run",
        "examples/box",
        "--device",
        "examples/box/ttyUSB0.device",
    ];
    let expected = fs::read_to_string(root.join("examples/box/expected")).expect("the listing");
    run_in(&root, &arguments, b"").is(0, &expected, "");
    run_in(&root, &["test", "examples/box"], b"").is(0, "1 case: 1 passed, 0 failed\n", "");
}

#[test]
fn of_one_name_the_highest_rank_counts() {
    let folder = in_all_ranks("rules_files_ranks");
    let run = |paths: &[&str]| {
        let mut arguments = vec!["run"];
        arguments.extend(paths);
        arguments.extend(["--device", "tty.device"]);
        folder.run(&arguments)
    };
    run(&["."]).is(0, &tagged("etc"), "");
    fs::remove_dir_all(folder.path.join("etc")).expect("a directory of the test");
    run(&["."]).is(0, &tagged("run"), "");
    let directories = [
        "lib/udev/rules.d",
        "usr/local/lib/udev/rules.d",
        "run/udev/rules.d",
    ];
    run(&directories).is(0, &tagged("run"), "");
    run(&directories[..2]).is(0, &tagged("local"), "");
    run(&[
        "usr/local/lib/udev/rules.d/10-a.rules",
        "lib/udev/rules.d/10-a.rules",
    ])
    .is(0, &tagged("local"), "");
    run(&directories[..1]).is(0, &tagged("lib"), "");
    // Another directory is as etc.
    folder.file("site/10-a.rules", "TAG+=\"site\"\n");
    run(&["run/udev/rules.d", "site"]).is(0, &tagged("site"), "");
}

#[test]
fn lib_as_a_link_is_one_directory() {
    let folder = Folder::new("rules_files_link");
    folder
        .file("tty.device", DEVICE)
        .file("box/usr/lib/udev/rules.d/10-a.rules", "TAG+=\"a\"\n")
        .file("box/usr/lib/udev/rules.d/20-b.rules", "TAG+=\"b\"\n");
    symlink("usr/lib", folder.path.join("box/lib")).expect("a link");
    let said = folder.run(&["run", "box", "--device", "tty.device"]);
    said.is(
        0,
        &format!("visited 2\ntried 0\n{NOTHING}tag a\ntag b\n"),
        "",
    );
}

#[test]
fn an_empty_text_disables_its_name() {
    let folder = in_all_ranks("rules_files_empty");
    folder.file("etc/udev/rules.d/10-a.rules", "");
    let said = folder.run(&["run", ".", "--device", "tty.device"]);
    said.is(0, &format!("visited 0\ntried 0\n{NOTHING}"), "");
}

#[test]
fn names_give_the_order() {
    let folder = Folder::new("rules_files_order");
    folder
        .file("tty.device", DEVICE)
        .file("b.rules", "TAG==\"a\", TAG+=\"b\"\n")
        .file("a.rules", "TAG+=\"a\"\n")
        .file("notes", "no rules\n");
    let expected = format!("visited 2\ntried 0\n{NOTHING}tag a\ntag b\n");
    for files in [["a.rules", "b.rules"], ["b.rules", "a.rules"]] {
        let arguments = [&["run"], &files[..], &["notes", "--device", "tty.device"]].concat();
        folder.run(&arguments).is(0, &expected, "");
    }
    folder
        .run(&["run", ".", "--device", "tty.device"])
        .is(0, &expected, "");
    // One file alone is run, whatever its name is.
    folder.file("rules", "TAG+=\"a\"\n");
    folder
        .run(&["run", "rules", "--device", "tty.device"])
        .is(0, &tagged("a"), "");
}

#[test]
fn refusals_name_the_file() {
    let folder = a_box("rules_files_refused");
    folder
        .file("etc/udev/rules.d/10-first.rules", "\nMODE=\"8\"\n")
        .file(
            "run/udev/rules.d/95-last.rules",
            "TAG+=\"a\"\n\nGRUOP=\"a\"\n",
        );
    let run = || folder.run(&["run", ".", "--device", "ttyUSB0.device"]);
    // A fault in the last file comes before the first one runs.
    run().is(
        1,
        "refused 11 line 3 file 95-last.rules\n",
        "run/udev/rules.d/95-last.rules:3: refused 11: unknown or missing key\n",
    );
    folder.file("run/udev/rules.d/95-last.rules", "");
    run().is(
        1,
        "refused 34 line 2 file 10-first.rules\n",
        "etc/udev/rules.d/10-first.rules:2: refused 34: mode that is not 1 to 4 octal digits, for ttyUSB0.device\n",
    );
    folder.file("etc/udev/rules.d/10-first.rules", vec![b'#'; 32_769]);
    run().is(
        1,
        "refused 2 line 0 file 10-first.rules\n",
        "etc/udev/rules.d/10-first.rules: refused 2: the rules text is longer than 32768 bytes\n",
    );
}

#[test]
fn one_name_twice_in_one_rank() {
    let folder = a_box("rules_files_twice");
    folder.file("other/etc/udev/rules.d/README", "Another text.\n");
    let arguments = [
        "run",
        "etc/udev/rules.d",
        "etc/udev/rules.d/README",
        "other/etc/udev/rules.d/README",
        "--device",
        "ttyUSB0.device",
    ];
    folder.run(&arguments).is(
        1,
        "refused 21 line 0\n",
        "refused 21: two files with one name and one rank: etc/udev/rules.d/README and \
         other/etc/udev/rules.d/README\n",
    );
}

#[test]
fn a_set_over_its_size() {
    let folder = Folder::new("rules_files_many");
    folder.file("tty.device", DEVICE);
    for number in 0..33 {
        folder.file(&format!("site/{number:02}.rules"), "TAG+=\"a\"\n");
    }
    let said = folder.run(&["run", "site", "--device", "tty.device"]);
    let message = "refused 7: the set is over its size, or is not laid out as one: at most 32 files, each with a name of at most 64 bytes\n";
    said.is(1, "refused 7 line 0\n", message);
    fs::remove_file(folder.path.join("site/32.rules")).expect("a file of the test");
    let said = folder.run(&["run", "site", "--device", "tty.device"]);
    said.is(0, &format!("visited 32\ntried 0\n{NOTHING}tag a\n"), "");
}

#[test]
fn other_files_of_a_set_that_are_refused() {
    let folder = Folder::new("rules_files_beside");
    folder
        .file("tty.device", DEVICE)
        .file("site/a.rules", "")
        .file("site/b.rules", "")
        .file("damaged", b"\x10\x10\xbc\x00")
        .file("sheet", b"\x01\x00\x00");
    let said = folder.run(&["run", "site", "--device", "damaged"]);
    let message = "damaged: refused 3: the device record is faulty\n";
    said.is(1, "refused 3 line 0\n", message);
    let said = folder.run(&["run", "site", "--device", "tty.device", "--sheet", "sheet"]);
    let message = "sheet: refused 6: the answer sheet is faulty\n";
    said.is(1, "refused 6 line 0\n", message);
    let said = folder.run(&["run", "none", "--device", "tty.device"]);
    said.is(2, "", "spillfinch: none: No such file or directory\n");
    fs::create_dir(folder.path.join("empty")).expect("a directory of the test");
    let said = folder.run(&["run", "empty", "--device", "tty.device"]);
    said.is(2, "", "spillfinch: empty: no file here ends in .rules\n");
}

#[test]
fn a_case_with_several_files() {
    let folder = Folder::new("rules_files_case");
    folder
        .file("etc/udev/rules.d/50-rope.rules", RULES)
        .file("lib/udev/rules.d/50-rope.rules", "no rule\n")
        .file("rope/tty.device", DEVICE)
        .file("rope/expected", LISTING)
        .file("own/a.rules", "TAG+=\"a\"\n")
        .file("own/b.rules", "TAG+=\"b\"\nOWNER=\"!\"\n")
        .file("own/tty.device", DEVICE)
        .file("own/expected", "refused 33 line 2 file b.rules\n");
    folder
        .run(&["test"])
        .is(0, "2 cases: 2 passed, 0 failed\n", "");
    folder.file("own/b.rules", "OWNER=\"!\"\n");
    let said = folder.run(&["test", "own"]);
    let out = "--- own/expected\n+++ own now\n@@ -1 +1 @@\n-refused 33 line 2 file b.rules\n\
        +refused 33 line 1 file b.rules\n1 case: 0 passed, 1 failed\n";
    let message = "own/b.rules:1: refused 33: owner or group that is no name of 1 to 32 bytes, for own/tty.device\n";
    said.is(1, out, message);
}

#[test]
fn what_any_file_names_is_kept_of_a_recording() {
    let folder = Folder::new("rules_files_recording");
    let attributes: String = (0..40).map(|number| format!("A: a{number}=1\n")).collect();
    folder
        .file("many.umockdev", format!("P: /devices/sda\n{attributes}"))
        .file("site/a.rules", "TAG+=\"a\"")
        .file("site/b.rules", "ATTR{a39}==\"1\", TAG+=\"b\"\n");
    let said = folder.run(&["run", "site", "--device", "many.umockdev"]);
    assert_eq!(said.status, 0, "{}", said.err);
    assert!(said.out.contains("tag a\ntag b\n"), "{}", said.out);
}
