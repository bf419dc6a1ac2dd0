//! `spillfinch strike`.

mod common;

use common::{repository, run_in, Folder};

/// A site file with a bad line that is joined, and a jump whose label it holds.
const SITE: &str = "GOTO=\"end\"\nTAG+=\"a\"\nLABEL=\"end\", \\\n  TAGS=\"b\"\nTAG+=\"c\"\n";

const LEFT: &str = "\nTAG+=\"a\"\n\n\nTAG+=\"c\"\n";

const STRIKES: &str = "site.rules:1: struck 19: GOTO without a later LABEL\n\
    site.rules:3: struck 11: unknown or missing key\n";

#[test]
fn faulty_lines_struck() {
    let folder = Folder::new("strike");
    folder
        .file("site.rules", SITE)
        .file("b/well.rules", "TAG+=\"d\"\n# c");
    folder.run(&["strike", "site.rules"]).is(0, LEFT, STRIKES);
    let both = format!("TAG+=\"d\"\n# c{LEFT}");
    folder
        .run(&["strike", "b", "site.rules"])
        .is(0, &both, STRIKES);
    folder.run_with(&["strike", "-"], LEFT).is(0, LEFT, "");
    assert_eq!(folder.read("site.rules"), SITE);
}

#[test]
fn lines_that_would_be_struck() {
    let folder = Folder::new("strike_list");
    folder.file("site.rules", SITE).file("well.rules", LEFT);
    let said = folder.run(&["strike", "--list", "."]);
    said.is(1, &format!("{STRIKES}2 files, 2 lines struck\n"), "");
    let said = folder.run(&["strike", "--list", "well.rules"]);
    said.is(0, "1 file, 0 lines struck\n", "");
    assert_eq!(folder.read("site.rules"), SITE);
}

#[test]
fn files_written_in_place() {
    let folder = Folder::new("strike_in_place");
    folder.file("site.rules", SITE).file("well.rules", LEFT);
    let said = folder.run(&["strike", "--in-place", "."]);
    said.is(0, "written site.rules\n2 files, 2 lines struck\n", STRIKES);
    assert_eq!(folder.read("site.rules"), LEFT);
    let said = folder.run(&["strike", "--in-place", "."]);
    said.is(0, "2 files, 0 lines struck\n", "");
    let said = folder.run_with(&["strike", "--in-place", "-"], SITE);
    said.is(
        2,
        "",
        "spillfinch: standard input cannot be written in place\n",
    );
}

/// If one file is too long, none is printed or written.
#[test]
fn a_file_that_is_too_long() {
    let folder = Folder::new("strike_long");
    folder
        .file("a.rules", SITE)
        .file("b.rules", "\n".repeat(32_769));
    let message = "b.rules: refused 2: the rules text is longer than 32768 bytes\n";
    for arguments in [
        &["strike", "."][..],
        &["strike", "--list", "."],
        &["strike", "--in-place", "."],
    ] {
        folder.run(arguments).is(1, "", message);
    }
    assert_eq!(folder.read("a.rules"), SITE);
}

#[test]
fn the_example() {
    let site = "examples/strike/site.rules";
    let said = run_in(&repository(), &["strike", site], b"");
    assert_eq!(said.status, 0);
    let lines: Vec<&str> = said.out.lines().collect();
    assert_eq!(lines.len(), 8);
    assert_eq!(lines[3..6], ["", "", ""]);
    let struck = format!(
        "{site}:4: struck 11: unknown or missing key\n\
         {site}:6: struck 19: GOTO without a later LABEL\n"
    );
    assert_eq!(said.err, struck);
    let said = run_in(&repository(), &["check", "-"], said.out.as_bytes());
    assert_eq!(said.status, 0, "{}", said.out);
}
