//! `spillfinch check`: files, formats, and the place of every fault.

mod common;

use common::{on_terminal, repository, run_in, Folder, RULES};

const FIVE: &str = "# a site file with five faults\n\
    KERNAL==\"ttyUSB*\", SYMLINK+=\"a\"\n\
    KERNEL==\"ttyUSB*\" SYMLINK+=\"a\"\n\
    KERNEL==\"ttyUSB*\", MODE=0660\n\
    KERNEL==\"tty[US\", SYMLINK+=\"a\"\n\
    KERNEL!=\"ttyUSB*\", GOTO=\"ned\"\n\
    LABEL=\"end\"\n";

#[test]
fn five_faults_at_length() {
    let folder = Folder::new("check_five");
    folder.file("five.rules", FIVE);
    let expected = r#"five.rules:2: fault 11: unknown or missing key
  --> five.rules:2:1
  |
2 | KERNAL=="ttyUSB*", SYMLINK+="a"
  | ^^^^^^ did you mean KERNEL?

five.rules:3: fault 17: neither a comma nor the end of the line
  --> five.rules:3:19
  |
3 | KERNEL=="ttyUSB*" SYMLINK+="a"
  |                   ^ a comma is missing here

five.rules:4: fault 14: value not in quotation marks, with an unknown escape, or longer than 256 bytes
  --> five.rules:4:25
  |
4 | KERNEL=="ttyUSB*", MODE=0660
  |                         ^ a value stands in quotation marks

five.rules:5: fault 15: value not of the kind that its key takes
  --> five.rules:5:13
  |
5 | KERNEL=="tty[US", SYMLINK+="a"
  |             ^ no `]` closes this set

five.rules:6: fault 19: GOTO without a later LABEL
  --> five.rules:6:20
  |
6 | KERNEL!="ttyUSB*", GOTO="ned"
  |                    ^^^^^^^^^^ did you mean end?

1 file: 5 faults, 0 warnings
"#;
    folder.run(&["check", "five.rules"]).is(1, expected, "");
    folder
        .run(&["check", "--format=long", "five.rules"])
        .is(1, expected, "");
}

/// A fault of a joined line has the number of its first physical line, and is shown where it stands.
#[test]
fn joined_lines() {
    let folder = Folder::new("check_joined");
    folder.file(
        "a.rules",
        "KERNEL==\"ttyUSB*\", \\\n    GRUOP=\"dialout\", \\\n    MODE=\"0660\"\n# c \\\nTAG+=\"a\",\\\n",
    );
    let expected = r#"a.rules:1: fault 11: unknown or missing key
  --> a.rules:2:5
  |
2 |     GRUOP="dialout", \
  |     ^^^^^ did you mean GROUP?

a.rules:5: fault 20: backslash at the end that no line follows
  --> a.rules:5:10
  |
5 | TAG+="a",\
  |          ^ no line follows that it could join

1 file: 2 faults, 0 warnings
"#;
    folder.run(&["check", "a.rules"]).is(1, expected, "");
    let expected = r#"{
  "files": 1,
  "faults": 2,
  "warnings": 0,
  "remarks": [
    {"path": "a.rules", "line": 1, "column": 5, "column_line": 2, "fault": 11, "text": "unknown or missing key", "hint": "did you mean GROUP?"},
    {"path": "a.rules", "line": 5, "column": 10, "fault": 20, "text": "backslash at the end that no line follows", "hint": "no line follows that it could join"}
  ]
}
"#;
    folder
        .run(&["check", "--format=json", "a.rules"])
        .is(1, expected, "");
}

#[test]
fn short_and_json() {
    let folder = Folder::new("check_formats");
    folder.file(
        "a.rules",
        "KERNAL==\"a\"\nMODE=\"\u{e9}\\\"\", RUN+=\"\"\nGROUP=\"g\" x\n",
    );
    let expected = "a.rules:1: fault 11: unknown or missing key (did you mean KERNEL?)\n\
        a.rules:2: warning E15: here this is refused as a mode (34) when its rule runs; udev \
        ignores it\n\
        a.rules:2: warning E13: here an empty value adds nothing; udev adds an empty command\n\
        a.rules:3: fault 17: neither a comma nor the end of the line\n\
        1 file: 2 faults, 2 warnings\n";
    folder
        .run(&["check", "--format=short", "a.rules"])
        .is(1, expected, "");
    let expected = r#"{
  "files": 1,
  "faults": 2,
  "warnings": 2,
  "remarks": [
    {"path": "a.rules", "line": 1, "column": 1, "fault": 11, "text": "unknown or missing key", "hint": "did you mean KERNEL?"},
    {"path": "a.rules", "line": 2, "column": 6, "warning": "E15", "text": "here this is refused as a mode (34) when its rule runs; udev ignores it"},
    {"path": "a.rules", "line": 2, "column": 13, "warning": "E13", "text": "here an empty value adds nothing; udev adds an empty command"},
    {"path": "a.rules", "line": 3, "column": 11, "fault": 17, "text": "neither a comma nor the end of the line"}
  ]
}
"#;
    folder
        .run(&["check", "--format=json", "a.rules"])
        .is(1, expected, "");
    folder.file("say \"b\\c\".rules", "GOTO=\"a\"\n");
    let said = folder.run(&["check", "--format=json", "say \"b\\c\".rules"]);
    assert!(
        said.out
            .contains(r#"{"path": "say \"b\\c\".rules", "line": 1,"#),
        "{}",
        said.out
    );
    let said = folder.run_with(&["check", "--format=json", "-"], RULES);
    let expected =
        "{\n  \"files\": 1,\n  \"faults\": 0,\n  \"warnings\": 0,\n  \"remarks\": []\n}\n";
    said.is(0, expected, "");
}

#[test]
fn files_directories_and_standard_input() {
    let folder = Folder::new("check_files");
    folder
        .file("rules.d/20.rules", "GOTO=\"a\"\n")
        .file("rules.d/10.rules", RULES)
        .file("rules.d/README", "no rules")
        .file("rules.d/sub/30.rules", "bad")
        .file("other", "x");
    let said = folder.run_with(
        &["check", "--format=short", "other", "rules.d", "-"],
        "LABEL=\"\"",
    );
    let expected = "other:1: fault 11: unknown or missing key\n\
        rules.d/20.rules:1: fault 19: GOTO without a later LABEL\n\
        -:1: fault 15: value not of the kind that its key takes (a label has a name)\n\
        4 files: 3 faults, 0 warnings\n";
    said.is(1, expected, "");
    folder
        .run(&["check", "rules.d/10.rules"])
        .is(0, "1 file: 0 faults, 0 warnings\n", "");
}

#[test]
fn files_that_cannot_be_read() {
    let folder = Folder::new("check_unreadable");
    folder.file("bad.rules", "bad").file("d/readme", "");
    let said = folder.run(&["check", "bad.rules", "none.rules"]);
    said.is(2, "", "spillfinch: none.rules: No such file or directory\n");
    let said = folder.run(&["check", "bad.rules", "d"]);
    said.is(2, "", "spillfinch: d: no file here ends in .rules\n");
    let said = folder.run_with(&["check", "-", "-"], RULES);
    said.is(2, "", "spillfinch: standard input can be read only once\n");
}

#[test]
fn texts_that_are_no_text() {
    let folder = Folder::new("check_bytes");
    folder
        .file("nul.rules", b"# a\0b\n")
        .file("bytes.rules", b"\tKERNEL==\"\xff\xc3\xa9\x1b[\"\n")
        .file(
            "long.rules",
            format!("{}{}\n", "#".repeat(1_024), "x".repeat(80)),
        )
        .file("large.rules", "\n".repeat(32_769));
    folder.run(&["check", "nul.rules"]).is(
        1,
        "nul.rules:1: fault 10: line longer than 1024 bytes, or with a NUL byte\n  \
         --> nul.rules:1:4\n  |\n1 | # a\\x00b\n  |    ^^^^ a NUL byte\n\n\
         1 file: 1 fault, 0 warnings\n",
        "",
    );
    folder.run(&["check", "bytes.rules"]).is(
        1,
        "bytes.rules:1: fault 15: value not of the kind that its key takes\n  \
         --> bytes.rules:1:14\n  |\n1 |     KERNEL==\"\\xff\u{e9}\\x1b[\"\n  \
         |                       ^ no `]` closes this set\n\n1 file: 1 fault, 0 warnings\n",
        "",
    );
    let said = folder.run(&["check", "long.rules"]);
    let shown = format!("1 | ...{}{}\n", "#".repeat(60), "x".repeat(80));
    assert!(said.out.contains(&shown), "{}", said.out);
    assert!(
        said.out.contains("^^^ the line has 1104 bytes\n"),
        "{}",
        said.out
    );
    folder.run(&["check", "large.rules"]).is(
        1,
        "large.rules: fault 2: the rules text is longer than 32768 bytes (it has 32769 bytes)\n\n\
         1 file: 1 fault, 0 warnings\n",
        "",
    );
}

#[test]
fn too_many_rules() {
    let folder = Folder::new("check_rules");
    let text = "TAG+=\"a\"\n".repeat(514);
    let said = folder.run_with(&["check", "--format=short", "-"], text);
    let expected = "-:513: fault 18: more than 512 rules\n-:514: fault 18: more than 512 rules\n\
        1 file: 2 faults, 0 warnings\n";
    said.is(1, expected, "");
}

#[test]
fn the_examples_have_no_faults() {
    let said = run_in(
        &repository(),
        &["check", "examples/cases", "examples/listing"],
        b"",
    );
    said.is(0, "2 files: 0 faults, 0 warnings\n", "");
}

#[test]
fn colors_are_for_terminals() {
    let folder = Folder::new("check_colors");
    folder.file("bad.rules", "KERNAL==\"a\"\n");
    assert!(on_terminal(&folder, "check bad.rules", &[]).contains("\u{1b}["));
    assert!(!on_terminal(&folder, "check bad.rules", &[("NO_COLOR", "1")]).contains("\u{1b}["));
    assert!(!on_terminal(&folder, "check bad.rules", &[("TERM", "dumb")]).contains("\u{1b}["));
    assert!(!folder.run(&["check", "bad.rules"]).out.contains("\u{1b}["));
}
