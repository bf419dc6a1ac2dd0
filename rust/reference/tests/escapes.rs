//! Values behind an `e`, with their escapes: document 02, Item 1.

mod common;

use common::*;
use reference::rules;

/// The value of the first pair of an accepted line.
fn value_of(line: &str) -> Vec<u8> {
    let rules = rules::read(line.as_bytes()).expect(line);
    rules[0].pairs[0].value.clone()
}

fn value(written: &str) -> Vec<u8> {
    value_of(&format!("ENV{{A}}={written}"))
}

fn fault(written: &str) -> (u32, u32) {
    check(format!("\nENV{{A}}={written}"))
}

#[test]
fn the_string_of_the_request_is_7_bytes() {
    assert_eq!(value(r#"e"string\n""#), b"string\n");
    assert_eq!(value(r#"e"string\n""#).len(), 7);
    // Without the letter it is 8.
    assert_eq!(value(r#""string\n""#), b"string\\n");
}

#[test]
fn every_escape() {
    for (written, byte) in [
        (r"\a", 7),
        (r"\b", 8),
        (r"\f", 12),
        (r"\n", 10),
        (r"\r", 13),
        (r"\t", 9),
        (r"\v", 11),
        (r"\\", b'\\'),
        (r#"\""#, b'"'),
        (r"\'", b'\''),
        (r"\x01", 1),
        (r"\x0a", 10),
        (r"\x0A", 10),
        (r"\xfF", 255),
        (r"\x7e", b'~'),
    ] {
        assert_eq!(value(&format!("e\"{written}\"")), [byte], "{written}");
        assert_eq!(value(&format!("e\"a{written}b\"")), [b'a', byte, b'b']);
    }
}

#[test]
fn no_other_escape() {
    for byte in 1..=255_u8 {
        let is_escape = b"abfnrtv\\\"'".contains(&byte);
        if is_escape || byte == b'\n' {
            continue;
        }
        let line = [&b"ENV{A}=e\"\\"[..], &[byte], b"\""].concat();
        assert_eq!(check(line), (14, 1), "{byte}");
    }
    for written in [r"\0", r"\101", r"\u0041", r"\X41", r"\ ", r"\e", r"\?"] {
        assert_eq!(fault(&format!("e\"{written}\"")), (14, 2), "{written}");
    }
}

#[test]
fn two_hexadecimal_digits() {
    assert_eq!(value(r#"e"\x411""#), b"A1");
    assert_eq!(value(r#"e"\x41\x42""#), b"AB");
    for written in [r"\x", r"\x4", r"\x4g", r"\xg4", r"\x 4", r"\x4 ", r"\x+4"] {
        assert_eq!(fault(&format!("e\"{written}\"")), (14, 2), "{written}");
    }
    assert_eq!(fault(r#"e"\x00""#), (14, 2));
    assert_eq!(fault(r#"e"\x01\x00""#), (14, 2));
    // A NUL that is written as it is comes first.
    assert_eq!(check(b"ENV{A}=e\"\\x00\0\""), (10, 1));
}

#[test]
fn where_the_letter_stands() {
    assert_eq!(value(" \te\"a\""), b"a");
    for written in [
        "e \"a\"",
        "E\"a\"",
        "ee\"a\"",
        "e",
        "ea",
        "e'a'",
        "\te\t\"a\"",
    ] {
        assert_eq!(fault(written), (14, 2), "{written}");
    }
    // A closed value, then a letter.
    assert_eq!(fault("\"\"e"), (17, 2));
    assert_eq!(fault("e\"\"e\"\""), (17, 2));
}

#[test]
fn where_the_value_ends() {
    assert_eq!(value(r#"e"""#), b"");
    assert_eq!(value(r#"e"\\""#), b"\\");
    assert_eq!(value(r#"e"a\\\"\\""#), b"a\\\"\\");
    assert_eq!(fault(r#"e"\""#), (14, 2));
    // Two backslashes before a newline leave one at the end of the line.
    assert_eq!(fault("e\"a\\\\\n\n"), (14, 2));
    assert_eq!(fault(r#"e"a"#), (14, 2));
    // What follows a value is read as ever.
    assert_eq!(value("e\"\\\\\", TAG+=\"a\""), b"\\");
    assert_eq!(fault(r#"e"\\"""#), (17, 2));
    // In the plain form nothing is new: the mark behind the backslash is a byte of the value.
    assert_eq!(fault(r#""\\""#), (14, 2));
    assert_eq!(value(r#""\x41\a'""#), br"\x41\a'");
}

#[test]
fn raw_bytes_stand_for_themselves() {
    assert_eq!(value("e\"'\t\x01 \x7f\r\""), b"'\t\x01 \x7f\r");
    assert_eq!(check(b"ENV{A}=e\"\xe4\xff\""), (0, 0));
}

#[test]
fn the_limit_counts_what_the_escapes_give() {
    let line = |escape: &str, count| format!("ENV{{A}}=e\"{}\"", escape.repeat(count));
    assert_eq!(check(line("\\n", 256)), (0, 0));
    assert_eq!(check(line("\\n", 257)), (14, 1));
    assert_eq!(check(line("\\x41", 250)), (0, 0));
    // 9 bytes, 253 times 4, the mark.
    let longest = line("\\x41", 253);
    assert_eq!((longest.len(), check(&longest)), (1_022, (0, 0)));
    assert_eq!(check(line("\\x41", 254)), (10, 1));
    // A faulty escape, a missing mark and too many bytes are one fault, before a faulty pattern.
    assert_eq!(check("KERNEL==e\"[\\q\""), (14, 1));
    assert_eq!(check("KERNEL==e\"[\""), (15, 1));
}

#[test]
fn what_escapes_give_has_its_full_meaning() {
    let device = tty_usb0();
    assert!(matches(r#"KERNEL==e"tty\x2a""#, &device));
    assert!(matches(r#"KERNEL==e"x\x7cttyUSB0""#, &device));
    assert!(matches(r#"KERNEL==e"ttyUSB\x5b0-9\x5d""#, &device));
    assert!(!matches(r#"KERNEL==e"tty\\*""#, &device));
    assert_eq!(links_of(r#"SYMLINK=e"\x24kernel""#, &device), ["ttyUSB0"]);
    assert_eq!(links_of(r#"SYMLINK=e"\x25\x6b""#, &device), ["ttyUSB0"]);
    assert_eq!(check(r#"SYMLINK=e"\x24""#), (15, 1));
    assert_eq!(check(r#"KERNEL==e"\x5ba""#), (15, 1));
}

#[test]
fn escaped_whitespace_is_written_whitespace() {
    let device = device_at("/a");
    assert_eq!(links_of(r#"SYMLINK=e"a\x20b""#, &device), ["a", "b"]);
    assert_eq!(links_of(r#"SYMLINK=e"a\tb""#, &device), ["a_b"]);
    assert_eq!(links_of(r#"SYMLINK=e"a\nb\\""#, &device), ["a_b_"]);
    let text = r#"OPTIONS="string_escape=none", SYMLINK=e"a\nb c\t""#;
    assert_eq!(links_of(text, &device), ["a\nb", "c\t"]);
    // The record with such links is read again.
    let (_, outcome) = run(text, &device);
    let (_, again) = run_on("", &device, &outcome);
    assert_eq!(outcome, again);
}

#[test]
fn a_match_value_that_ends_in_escaped_whitespace() {
    let mut device = device_at("/a");
    device.chain[0].attributes = vec![property("x", "v\n")];
    for key in ["ATTR", "ATTRS"] {
        assert!(matches(&format!(r#"{key}{{x}}==e"v\n""#), &device));
        assert!(matches(&format!(r#"{key}{{x}}==e"\x76""#), &device));
        assert!(!matches(&format!(r#"{key}{{x}}==e"v\t""#), &device));
        assert!(!matches(&format!(r#"{key}{{x}}==e"v\x0d""#), &device));
        assert!(!matches(&format!(r#"{key}{{x}}==e"v\n\n""#), &device));
    }
}

#[test]
fn every_key_takes_the_form() {
    let device = device_at("/a");
    let text = r#"OPTIONS=e"link_priority=\x37", TAG=e"\x61\n", RUN=e"x\t%k", MODE=e"06\x360", OWNER=e"ro\x6ft""#;
    let (_, outcome) = run(text, &device);
    assert_eq!((outcome.priority, outcome.mode), (7, Some(0o660)));
    assert_eq!(outcome.tags, [b"a\n"]);
    assert_eq!(outcome.owner.as_deref(), Some(&b"root"[..]));
    assert_eq!(outcome.runs[0].template.written(), b"x\t%k");
    assert_eq!(properties_of(r#"ENV{A}=e"\x01\\""#, &device), ["A=\x01\\"]);
    assert_eq!(
        properties_of(
            r#"ENV{A}="b"
ENV{A}=e"""#,
            &device
        ),
        [""; 0]
    );
    let tag = |count| format!("TAG+=e\"{}\"", "\\x74".repeat(count));
    assert_eq!(check(tag(64)), (0, 0));
    assert_eq!(check(tag(65)), (15, 1));
    assert_eq!(check("LABEL=e\"\""), (15, 1));
    assert_eq!(check("OPTIONS=e\"string_escape=none\\n\""), (15, 1));
}

#[test]
fn labels_are_compared_after_unescaping() {
    let device = device_at("/a");
    let text = "GOTO=\"a\"\nTAG+=\"x\"\nLABEL=e\"\\x61\"\n";
    assert_eq!(run(text, &device).0, 2);
    let text = "GOTO=e\"\\\\\"\nTAG+=\"x\"\nLABEL=e\"\\x5c\"\n";
    assert_eq!(run(text, &device).0, 2);
    assert_eq!(check("GOTO=\"\\n\"\nLABEL=e\"\\n\""), (19, 1));
}

#[test]
fn arguments_do_not_take_the_form() {
    let device = device_with(&[("e\"a\"", "1"), ("\\x41", "2")]);
    assert!(matches(r#"ENV{e"a"}=="1""#, &device));
    assert!(matches(r#"ENV{\x41}=="2""#, &device));
}

#[test]
fn an_escaped_newline_ends_no_line() {
    let text = "ENV{A}=e\"\\n\\n\"\nMODE=\"8\"";
    assert_eq!(refusal(text, &device_at("/a")), (34, 2));
    let text = b"ENV{A}=e\"a\nb\"";
    assert_eq!(check(text), (14, 1));
}
