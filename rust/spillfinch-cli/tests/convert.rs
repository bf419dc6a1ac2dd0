//! Outcome records of both editions, converted by the command.

mod common;

use common::{repository, run_in, Folder};
use std::fs;

const OLD: &str = "examples/devices/old.outcome";
const FORM: &str = "group dialout\nmode 0660\npriority 10\nlink rope/trip0\n\
    property DEVNAME=/dev/ttyUSB0\nproperty MAJOR=188\nproperty MINOR=0\nproperty SUBSYSTEM=tty\n\
    tag counter\nprogram 4 tally $attr{serial}\n";

fn folder(name: &str) -> Folder {
    let folder = Folder::new(name);
    let example = |path: &str| fs::read(repository().join(path)).expect("an example");
    folder
        .file("old", example(OLD))
        .file("dev", example("examples/devices/counter.device"))
        .file("none.rules", "")
        .file("watch.rules", "OPTIONS=\"nowatch\"\n");
    folder
}

#[test]
fn there_and_back() {
    let folder = folder("there_and_back");
    let convert = |arguments: &[&str]| {
        let words = [&["convert", "--device", "dev"], arguments].concat();
        folder.run(&words)
    };
    convert(&["old"]).is(0, FORM, "");
    convert(&["old", "-o", "new"]).is(0, "", "");
    convert(&["new", "--edition", "1"]).is(0, FORM, "");
    convert(&["new", "--edition", "1", "-o", "again"]).is(0, "", "");
    let read = |name: &str| fs::read(folder.path.join(name)).expect("a record");
    assert_eq!(read("again"), read("old"));
    assert_eq!(read("new").len(), read("old").len() + 2);
    assert_eq!(read("new")[0], read("old")[0] + 16);
}

#[test]
fn refused() {
    let folder = folder("convert_refused");
    folder.file("form", FORM).file("bad.device", b"\x10\0\0");
    let run = |arguments: &str| {
        let words: Vec<&str> = arguments.split(' ').collect();
        folder.run(&words)
    };
    run("convert old --device dev -o new").is(0, "", "");
    let faulty = "the outcome record is faulty\n";
    run("convert new --device dev").is(1, "", &format!("new: refused 4: {faulty}"));
    run("convert old --device dev --edition 1").is(1, "", &format!("old: refused 4: {faulty}"));
    run("convert form --device dev").is(1, "", &format!("form: refused 4: {faulty}"));
    run("convert old --device bad.device").is(
        1,
        "",
        "bad.device: refused 3: the device record is faulty\n",
    );
    let said = run("run watch.rules --device dev --from new --record watched");
    assert_eq!(said.status, 0, "{}", said.err);
    let expected = "watched: refused 5: edition 1 has no room for an output, watch or nowatch\n";
    run("convert watched --device dev --edition 1 -o older").is(1, "", expected);
    assert!(!folder.has("older"));
}

#[test]
fn a_run_from_an_old_record() {
    let folder = folder("run_from_old");
    let expected = "old: refused 4: the outcome record is faulty; it is of edition 1, of which \
        `spillfinch convert` makes edition 2\n";
    let said = folder.run(&["run", "none.rules", "--device", "dev", "--from", "old"]);
    said.is(1, "refused 4 line 0\n", expected);
}

#[test]
fn the_listing_says_watch_behind_the_group() {
    let folder = folder("listed_watch");
    folder.file("start", FORM);
    let run = |rules: &str| folder.run(&["run", rules, "--device", "dev", "--from", "start"]);
    let lines = |watch: &str| {
        format!(
            "visited {}\ntried 0\npriority 10\nmode 0660\ngroup dialout\n{watch}link rope/trip0\n\
             env DEVNAME=/dev/ttyUSB0\nenv MAJOR=188\nenv MINOR=0\nenv SUBSYSTEM=tty\n\
             tag counter\nprogram tally RC-0417\n",
            usize::from(!watch.is_empty())
        )
    };
    run("none.rules").is(0, &lines(""), "");
    run("watch.rules").is(0, &lines("nowatch\n"), "");
    folder.file("start", format!("{FORM}watch\noutput a b\\x0a\n"));
    run("none.rules").is(0, &lines("").replace("link", "watch\nlink"), "");
}

#[test]
fn records_without_a_zero_byte_are_no_text() {
    let folder = folder("no_zero_byte");
    // Closed keys, mode, priority, counts and the output's length leave no byte zero.
    let record =
        b"\x2f\xc1\x06\x3f\xa1\x11\x11\x11\x21\x04\x21\x01\x10ooooog\x01l\x02\x01kv\x01t\x04\x02a";
    assert!(!record.contains(&0));
    folder.file("start", record);
    let said = run_in(
        &folder.path,
        &["run", "none.rules", "--device", "dev", "--from", "start"],
        b"",
    );
    assert_eq!(said.status, 0, "{}", said.err);
    assert!(said.out.contains("watch\nlink l\n"), "{}", said.out);
}
