//! The rules written back: document 02, Item 2.

mod common;

use common::*;
use reference::generate::case;
use reference::rules::{self, Rule};
use reference::sizes::TEXT;

/// The number and line that writing gives, and what it writes.
fn write_into(text: &[u8], room: usize) -> (u32, u32, Vec<u8>) {
    let mut target = vec![0xAA; room];
    let answer = reference::write(text, &mut target);
    assert_eq!((answer.visited, answer.tried), (0, 0));
    let (written, rest) = target.split_at(answer.used as usize);
    assert!(rest.iter().all(|&byte| byte == 0));
    assert!(answer.number == 0 || written.is_empty());
    (answer.number, answer.line, written.to_vec())
}

fn written(text: impl AsRef<[u8]>) -> String {
    let (number, line, written) = write_into(text.as_ref(), TEXT);
    assert_eq!((number, line), (0, 0));
    string(&written)
}

fn refused(text: impl AsRef<[u8]>) -> (u32, u32) {
    let (number, line, _) = write_into(text.as_ref(), TEXT);
    (number, line)
}

#[test]
fn nothing_between_the_parts() {
    let text = "# first\n\n\tKERNEL == \"ttyUSB*\" ,ATTRS{serial}\t!= \"a b\" , TAG+=\"x\"\t\n  \nRUN=\"y\"";
    assert_eq!(
        written(text),
        "KERNEL==\"ttyUSB*\",ATTRS{serial}!=\"a b\",TAG+=\"x\"\nRUN=\"y\"\n"
    );
    assert_eq!(written(""), "");
    assert_eq!(written("# c\n\n \t\n#"), "");
}

#[test]
fn what_was_read_stays() {
    for rule in [
        "RUN=\"x\"",
        "RUN{program}+=\"x\"",
        "RUN{builtin}:=\"x\"",
        "OPTIONS=\"link_priority=-0\",OPTIONS+=\"link_priority=0000000012\"",
        "OPTIONS+=\"string_escape=none\"",
        "MODE=\"0660\",MODE:=\"660\"",
        "SYMLINK==\"a\",SYMLINK!=\"a\",SYMLINK=\"a\",SYMLINK+=\"a\",SYMLINK-=\"a\",SYMLINK:=\"a\"",
        "ENV{ a }=\"  b  \"",
        "ENV{e\"a\"}=\"\\x41\\n\"",
        "GOTO=\"a\"\nLABEL=\"a\"",
    ] {
        let text = format!("{rule}\n");
        assert_eq!(written(&text), text);
        assert_eq!(written(rule), text);
    }
}

#[test]
fn the_two_forms_of_a_value() {
    for (value, expected) in [
        // In the plain form only the mark is escaped.
        (r#""a\"b""#, r#""a\"b""#),
        (r#""a\b\\c""#, r#""a\b\\c""#),
        (r#""\\"x""#, r#""\\"x""#),
        (r#"e"a\"b""#, r#""a\"b""#),
        (r#"e"a\\b""#, r#""a\b""#),
        (r#"e"\\\"""#, r#""\\"""#),
        ("e\"\\t\\x01\\r\\x7f'\"", "\"\t\x01\r\x7f'\""),
        (r#"e"plain""#, r#""plain""#),
        (r#"e"\'\x41""#, r#""'A""#),
        (r#"e"""#, r#""""#),
        // With a newline inside or a backslash at the end the whole value has escapes.
        (r#"e"\n""#, r#"e"\n""#),
        (r#"e"\x0a""#, r#"e"\n""#),
        (r#"e"\\""#, r#"e"\\""#),
        (r#"e"a\\b\\""#, r#"e"a\\b\\""#),
        ("e\"\\t\\'\\\"\\\\x\\n\"", "e\"\t'\\\"\\\\x\\n\""),
        ("e\"\\x5c\\x22\\x5c\"", r#"e"\\\"\\""#),
        ("e\"\\x5c\\x22\"", r#""\\"""#),
    ] {
        let line = format!("ENV{{A}}={value}");
        assert_eq!(written(&line), format!("ENV{{A}}={expected}\n"), "{value}");
    }
    assert_eq!(
        write_into(b"ENV{A}=e\"\\xff\\xe4\"", TEXT).2,
        b"ENV{A}=\"\xff\xe4\"\n"
    );
}

#[test]
fn joined_lines_are_written_whole() {
    let text = "TAG+=\\\n\"a\\\nb\",\\\n\\\nTAG+=\"c\"\\\n\n# c\\\nTAG+=\"d\"\n";
    assert_eq!(written(text), "TAG+=\"ab\",TAG+=\"c\"\nTAG+=\"d\"\n");
    assert_eq!(written("\\\n# c\\\nTAG+=\"a\"\n"), "");
}

#[test]
fn the_order_of_refusals() {
    assert_eq!(write_into(&[b'x'; 40_000], TEXT - 1).0, 1);
    assert_eq!(write_into(b"", TEXT - 1).0, 1);
    assert_eq!(write_into(b"", 0).0, 1);
    assert_eq!(write_into(b"", TEXT + 5).0, 0);
    assert_eq!(refused(vec![b'x'; 32_769]), (2, 0));
    assert_eq!(refused("\nNAME=\"x\""), (11, 2));
    assert_eq!(refused("\nGOTO=\"x\""), (19, 2));
    assert_eq!(refused("\n\\"), (20, 2));
    // What is refused only while running is written.
    assert_eq!(
        written("MODE=\"0666\", SYMLINK=\"/\""),
        "MODE=\"0666\",SYMLINK=\"/\"\n"
    );
}

#[test]
fn a_text_that_has_no_room_for_its_last_newline() {
    // 32 rules of 1,024 bytes with their newlines, the last without one.
    let rule = |length: usize| {
        let values = ["a".repeat(250), "b".repeat(250), "c".repeat(250)];
        let start = values
            .map(|value| format!("ENV{{A}}=\"{value}\","))
            .concat();
        let rest = length - start.len() - "ENV{A}=\"\"".len();
        format!("{start}ENV{{A}}=\"{}\"", "d".repeat(rest))
    };
    let text = format!("{}\n", rule(1_023)).repeat(31);
    let full = format!("{text}{}", rule(1_024));
    assert_eq!((full.len(), check(&full)), (32_768, (0, 0)));
    assert_eq!(refused(&full), (2, 0));
    let just = format!("{text}{}", rule(1_023));
    assert_eq!(written(&just), format!("{just}\n"));
    assert_eq!(written(format!("{just}\n")).len(), 32_768);
    let loose = format!("{text} {}", rule(1_023));
    assert_eq!((loose.len(), refused(&loose)), (32_768, (0, 0)));
    // Faults of reading come before.
    let faulty = format!("{}x", &full[..32_767]);
    assert_eq!(refused(&faulty), (14, 32));
}

/// The rules without their lines.
fn without_lines(rules: &[Rule]) -> Vec<Rule> {
    let without_line = |rule: &Rule| Rule {
        line: 0,
        ..rule.clone()
    };
    rules.iter().map(without_line).collect()
}

#[test]
fn what_is_wanted_of_generated_texts() {
    let mut changed = 0;
    for seed in 0..10_000 {
        let text = case(seed).text;
        let (number, line, written) = write_into(&text, TEXT);
        let Ok(rules) = rules::read(&text) else {
            assert_eq!((number, line), check(&text), "seed {seed}");
            continue;
        };
        if number == 2 {
            continue;
        }
        assert_eq!(number, 0, "seed {seed}");
        let read_back = rules::read(&written).expect("the written text is accepted");
        assert_eq!(
            without_lines(&read_back),
            without_lines(&rules),
            "seed {seed}"
        );
        let lines: Vec<u32> = read_back.iter().map(|rule| rule.line).collect();
        assert_eq!(lines, (1..=rules.len() as u32).collect::<Vec<_>>());
        assert_eq!(write_into(&written, TEXT).2, written, "seed {seed}");
        assert!(written.len() <= text.len() + 1, "seed {seed}");
        changed += u32::from(written != text);
    }
    assert!(changed > 1_000, "{changed}");
}
