//! The answer sheet: document 02, Item 6.

mod common;

use common::*;
use reference::outcome::Outcome;
use reference::sheet::{Sheet, SheetEntry, EMPTY};
use reference::sheet_form::{parse_sheet, show_sheet};
use reference::sizes::OUTCOME_TARGET;

fn entry(command: &[u8], success: bool, output: &[u8]) -> SheetEntry {
    SheetEntry {
        command: command.to_vec(),
        success,
        output: output.to_vec(),
    }
}

fn packed(entries: &[SheetEntry]) -> Vec<u8> {
    let sheet = Sheet {
        entries: entries.to_vec(),
    };
    sheet.encode()
}

/// The number and line of a run with these bytes as its sheet.
fn run_number(text: &[u8], device: &[u8], outcome: &[u8], sheet: &[u8], room: usize) -> (u32, u32) {
    let mut target = vec![0xAA; room];
    let answer = reference::run(text, device, outcome, sheet, &mut target);
    if answer.number != 0 {
        assert!(target.iter().all(|&byte| byte == 0));
    }
    (answer.number, answer.line)
}

/// The number of a run that has no other ground to be refused.
fn number(sheet: &[u8]) -> u32 {
    let device = tty_usb0().encode();
    let outcome = Outcome::default().encode();
    run_number(b"TAG+=\"a\"", &device, &outcome, sheet, OUTCOME_TARGET).0
}

#[test]
fn the_layout() {
    // Count 8; success 1, lengths 10 and 10, unused 3; command; output.
    let sheet = [entry(b"ab", true, b"c\n"), entry(b"d", false, b"")];
    let bytes = [
        &[2, 0x80, 0x40, 0x10][..],
        b"abc\n",
        &[0x00, 0x20, 0x00],
        b"d",
    ];
    assert_eq!(packed(&sheet), bytes.concat());
    assert_eq!(
        Sheet::decode(&bytes.concat()).expect("a sheet").entries,
        sheet
    );
    assert_eq!(packed(&[]), EMPTY);
}

#[test]
fn refusal_6_is_of_bytes_that_pack_no_sheet() {
    assert_eq!(number(EMPTY), 0);
    assert_eq!(number(b""), 6);
    let sheet = packed(&[entry(b"ab", true, b"c"), entry(b"d", false, b"e")]);
    assert_eq!(number(&sheet), 0);
    for end in 0..sheet.len() {
        assert_eq!(number(&sheet[..end]), 6, "{end}");
    }
    assert_eq!(number(&[&sheet[..], b"\0"].concat()), 6);
    for unused in [1, 2, 4] {
        let mut sheet = sheet.clone();
        sheet[3] |= unused;
        assert_eq!(number(&sheet), 6);
    }
}

#[test]
fn the_limits_of_an_entry() {
    let of = |command: usize, output: usize| {
        number(&packed(&[entry(
            &vec![b'c'; command],
            true,
            &vec![b'o'; output],
        )]))
    };
    assert_eq!(of(1, 0), 0);
    assert_eq!(of(512, 512), 0);
    assert_eq!(of(0, 0), 6);
    assert_eq!(of(513, 0), 6);
    assert_eq!(of(1, 513), 6);
    assert_eq!(of(1_023, 1_023), 6);
    assert_eq!(number(&packed(&[entry(b"a\0", true, b"")])), 6);
    assert_eq!(number(&packed(&[entry(b"a", true, b"\0")])), 6);
    assert_eq!(number(&packed(&[entry(b"a", false, b"\0")])), 6);
    assert_eq!(number(&packed(&[entry(b"\n\xff", true, b"\x01\n")])), 0);
}

#[test]
fn commands_are_distinct_and_in_any_order() {
    let (a, b) = (entry(b"a", true, b"x"), entry(b"b", true, b"x"));
    assert_eq!(number(&packed(&[a.clone(), b.clone()])), 0);
    assert_eq!(number(&packed(&[b.clone(), a.clone()])), 0);
    assert_eq!(number(&packed(&[a.clone(), b, a])), 6);
    assert_eq!(
        number(&packed(&[
            entry(b"a", true, b"x"),
            entry(b"a", false, b"y")
        ])),
        6
    );
}

#[test]
fn the_limits_of_a_sheet() {
    let numbered = |count: usize, output: usize| -> Vec<SheetEntry> {
        (0..count)
            .map(|index| {
                entry(
                    format!("{index:0400}").as_bytes(),
                    true,
                    &vec![b'o'; output],
                )
            })
            .collect()
    };
    assert_eq!(number(&packed(&numbered(64, 0))), 0);
    assert_eq!(number(&packed(&numbered(65, 0))), 6);
    // 1 + 63 * (3 + 400 + 117) + 3 + 4: a sheet of just as many bytes as there may be.
    let mut entries = numbered(63, 117);
    entries.push(entry(b"a", true, b"xyz"));
    let sheet = packed(&entries);
    assert_eq!(sheet.len(), 32_768);
    assert_eq!(number(&sheet), 0);
    entries[63].output.push(b'x');
    assert_eq!(number(&packed(&entries)), 6);
}

#[test]
fn refusal_6_comes_after_4_and_in_every_run() {
    let device = tty_usb0().encode();
    let outcome = Outcome::default().encode();
    let run = |text: &[u8], device: &[u8], outcome: &[u8], room| {
        run_number(text, device, outcome, b"", room)
    };
    assert_eq!(run(b"", &device, &outcome, OUTCOME_TARGET), (6, 0));
    assert_eq!(
        run(b"MODE=\"8\"", &device, &outcome, OUTCOME_TARGET),
        (6, 0)
    );
    assert_eq!(run(b"", &device, b"", OUTCOME_TARGET), (4, 0));
    assert_eq!(run(b"", b"", b"", OUTCOME_TARGET), (3, 0));
    assert_eq!(run(b"x", b"", b"", OUTCOME_TARGET), (11, 1));
    assert_eq!(run(b"GOTO=\"a\"", b"", b"", OUTCOME_TARGET), (19, 1));
    assert_eq!(run(b"x", b"", b"", OUTCOME_TARGET - 1), (1, 0));
    let listing = reference::listing(b"", &device, None, Some(b""));
    assert_eq!(string(&listing), "refused 6 line 0\n");
}

const FORM: &str = "\
command /bin/serial ttyUSB0
  success
  output RC-0417\\x0a
command \\x20
  failure
command a\\x5cb=c
  success
";

#[test]
fn the_text_form() {
    let sheet = parse_sheet(FORM.as_bytes()).expect("a sound form");
    let expected = [
        entry(b"/bin/serial ttyUSB0", true, b"RC-0417\n"),
        entry(b" ", false, b""),
        entry(b"a\\b=c", true, b""),
    ];
    assert_eq!(sheet.entries, expected);
    assert_eq!(show_sheet(&sheet), FORM);
    assert_eq!(
        parse_sheet(b"# none\n").expect("a sound form"),
        Sheet::default()
    );
    // The lines of an entry come in any order.
    let other = b"command a\noutput b\nfailure\n";
    let sheet = parse_sheet(other).expect("a sound form");
    assert_eq!(sheet.entries, [entry(b"a", false, b"b")]);
}

#[test]
fn the_form_in_the_readme_is_read() {
    let readme = include_str!("../README.md");
    let (_, rest) = readme.split_once("```sheet\n").expect("a form");
    let (form, _) = rest.split_once("```").expect("its end");
    let sheet = parse_sheet(form.as_bytes()).expect("a sound form");
    assert_eq!(show_sheet(&sheet), form);
}

#[test]
fn faulty_forms() {
    let long = |word: &str, length| format!("command a\nsuccess\n{word} {}", "x".repeat(length));
    let many: String = (0..65).map(|n| format!("command {n}\nfailure\n")).collect();
    let full: String = (0..40)
        .map(|n| format!("command {n:0500}\nsuccess\noutput {}\n", "o".repeat(500)))
        .collect();
    for (form, message) in [
        ("success", "line 1: `success` comes after the `command` that it belongs to"),
        ("output a", "line 1: `output` comes after the `command` that it belongs to"),
        ("command", "line 1: the command has 0 bytes; it takes 1 to 512"),
        (&long("command", 513), "line 3: the command has 513 bytes; it takes 1 to 512"),
        (&long("output", 513), "line 3: the output has 513 bytes; it takes 0 to 512"),
        ("command a\n", "line 2: the `command` has no `success` or `failure`"),
        ("command a\ncommand b", "line 2: the `command` has no `success` or `failure`"),
        ("command a\nsuccess\nfailure", "line 3: a second `success` or `failure`"),
        ("command a\nsuccess\noutput a\noutput b", "line 4: a second `output`"),
        ("command a\nsuccess 1", "line 2: `success` stands alone"),
        ("command a\nfailure\ncommand a", "line 3: the same `command` a second time"),
        ("command a\\x00", "line 1: a record holds no NUL"),
        (&many, "line 129: at most 64 of `command`"),
        (&full, "line 121: the sheet has 40121 bytes; at most 32768"),
        (
            "program a",
            "line 1: unknown word `program`; an answer sheet has command, success, failure and output",
        ),
    ] {
        let error = parse_sheet(form.as_bytes()).expect_err("a faulty form");
        assert_eq!(error.to_string(), message);
    }
}
