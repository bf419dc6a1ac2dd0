//! Continued lines: document 02, Item 10.

mod common;

use common::*;
use reference::compare::Reference;
use reference::generate::joins::{CutText, JoinList};
use reference::joined::{check_cuts, check_list};
use reference::lines::lines;
use reference::outcome::Outcome;
use reference::rules;
use reference::sheet::EMPTY;

/// The number and the bytes of each line.
fn lines_of(text: &str) -> Vec<(u32, String)> {
    let shown = |line: &reference::lines::Line| (line.number, string(&line.bytes));
    lines(text.as_bytes()).iter().map(shown).collect()
}

fn line(number: u32, bytes: &str) -> (u32, String) {
    (number, bytes.to_string())
}

/// The first value of each rule.
fn values_of(text: &str) -> Vec<String> {
    let rules = rules::read(text.as_bytes()).expect(text);
    let first_value = |rule: &rules::Rule| string(&rule.pairs[0].value);
    rules.iter().map(first_value).collect()
}

#[test]
fn a_newline_after_a_backslash_joins() {
    assert_eq!(lines_of("a\\\nb\nc"), [line(1, "ab"), line(3, "c")]);
    assert_eq!(lines_of("a\\\n\\\nb"), [line(1, "ab")]);
    assert_eq!(lines_of("a\\\n b"), [line(1, "a b")]);
    assert_eq!(lines_of("a\\ \nb"), [line(1, "a\\ "), line(2, "b")]);
    assert_eq!(lines_of("a\\\r\nb"), [line(1, "a\\\r"), line(2, "b")]);
    assert_eq!(lines_of(""), [line(1, "")]);
    assert_eq!(lines_of("a\n"), [line(1, "a"), line(2, "")]);
}

#[test]
fn joins_are_found_once_in_the_text_as_lent() {
    // The second backslash goes with the newline, and the first does not join again.
    assert_eq!(lines_of("a\\\\\nb"), [line(1, "a\\b")]);
    assert_eq!(
        lines_of("a\\\\\n\nb"),
        [line(1, "a\\"), line(3, "b")],
        "the second newline follows a newline"
    );
    assert_eq!(values_of("ENV{A}=e\"a\\\nb\""), ["ab"]);
    assert_eq!(values_of("ENV{A}=e\"a\\\\\nb\""), ["a\x08"]);
    assert_eq!(values_of("ENV{A}=\"a\\\\\n\"b\""), ["a\"b"]);
    assert_eq!(values_of("ENV{A}=e\"\\x4\\\n1\""), ["A"]);
}

#[test]
fn a_join_may_stand_anywhere() {
    let rule = "ENV{KEY}=\"value\", TAG+=\"a\"";
    for place in 0..rule.len() {
        let text = format!("{}\\\n{}", &rule[..place], &rule[place..]);
        let rules = rules::read(text.as_bytes()).expect(&text);
        let mut expected = rules::read(rule.as_bytes()).expect(rule);
        expected[0].line = 1;
        assert_eq!(rules, expected, "{text}");
    }
}

#[test]
fn skipped_lines_never_continue() {
    let tags = |text| tags_of(text, &device_at("/a"));
    assert_eq!(tags("# c\\\nTAG+=\"a\"\n"), ["a"]);
    assert_eq!(tags(" \t#\\\nTAG+=\"a\"\n"), ["a"]);
    assert_eq!(tags("#\\\n#\\\nTAG+=\"a\"\n"), ["a"]);
    // A backslash is no blank.
    assert_eq!(lines_of("\\\nb"), [line(1, "b")]);
    assert_eq!(lines_of(" \t\\\nb"), [line(1, " \tb")]);
    // Inside a join a number sign begins no line.
    assert_eq!(check("TAG+=\"a\"\\\n# c"), (17, 1));
    assert_eq!(check("TAG+=\"a\",\\\n# c"), (11, 1));
}

#[test]
fn a_joined_line_may_be_skipped_whole() {
    assert_eq!(run("\\\n# c\\\nKERNEL==\"x\"\n", &device_at("/a")).0, 0);
    assert_eq!(
        lines_of("\\\n# c\\\nKERNEL\nx"),
        [line(1, "# cKERNEL"), line(4, "x")]
    );
    assert_eq!(check("\\\n\n"), (0, 0));
    assert_eq!(check(" \\\n\t\\\n \n"), (0, 0));
    assert_eq!(check("\\\n \n"), (0, 0));
}

#[test]
fn an_empty_line_ends_a_join() {
    let text = "TAG+=\"a\"\\\n\nTAG+=\"b\"\n";
    assert_eq!(run(text, &device_at("/a")).0, 2);
    assert_eq!(lines_of(text)[1], line(3, "TAG+=\"b\""));
}

#[test]
fn refusal_20() {
    for text in [
        "\\",
        "\\\n",
        "TAG+=\"a\"\\",
        "TAG+=\"a\"\\\n",
        "TAG+=\"a\",\\\nTAG+=\"b\"\\",
        "TAG+=\"a\",\\\nTAG+=\"b\"\\\n",
        "\\\n\\\n\\\n",
        "  \\",
        "\\\n# c\\",
        "\\\n# c\\\n",
        "\\\n \\",
        "NAME\\\n",
        "a\0\\\n",
        "a\\\n\0\\",
        "\\\\",
        "\\\\\n",
    ] {
        assert_eq!(check(text), (20, 1), "{text:?}");
        let later = format!("# c\\\n\nTAG+=\"a\"\n{text}");
        assert_eq!(check(&later), (20, 4), "{text:?}");
    }
    let long = "x".repeat(2_000);
    assert_eq!(check(format!("{long}\\")), (20, 1));
    for text in [
        "# c\\",
        "# c\\\n",
        " \t#\\",
        "TAG+=\"a\"\\\n\n",
        "TAG+=\"a\"\\\n ",
        "\\\n ",
        "TAG+=\"\\\"",
    ] {
        assert_ne!(check(text).0, 20, "{text:?}");
    }
    assert_eq!(check("TAG+=\"a\"\\\n "), (0, 0));
}

#[test]
fn the_order_of_20() {
    // Faults of earlier lines come first, those of its own line and jumps later.
    assert_eq!(check("NAME\nTAG+=\"a\"\\"), (11, 1));
    assert_eq!(check("GOTO=\"a\"\nTAG+=\"a\"\\"), (20, 2));
    let full = "TAG+=\"a\"\n".repeat(512);
    assert_eq!(check(format!("{full}TAG+=\"a\"\\")), (20, 513));
    assert_eq!(check(format!("{full}TAG+=\"a\"\nTAG+=\"a\"\\")), (18, 513));
    assert_eq!(
        check([b"\\\n".repeat(16_384), b"x".to_vec()].concat()),
        (2, 0)
    );
    assert_eq!(check(b"\\\n".repeat(16_384)), (20, 1));
}

#[test]
fn the_limit_of_a_line_is_that_of_the_joined_line() {
    let blanks = |count| " ".repeat(count);
    let rule = format!("TAG+=\"a\"{}", blanks(1_016));
    assert_eq!((rule.len(), check(&rule)), (1_024, (0, 0)));
    assert_eq!(check(format!("{rule}\\\n\n")), (0, 0));
    assert_eq!(check(format!("\\\n\\\n{rule}")), (0, 0));
    assert_eq!(check(format!("\\\n{rule} ")), (10, 1));
    assert_eq!(check(format!("{rule}\\\n ")), (10, 1));
    let half = &rule[..512];
    assert_eq!(check(format!("{half}\\\n{}", blanks(512))), (0, 0));
    assert_eq!(check(format!("{half}\\\n{}", blanks(513))), (10, 1));
    // A comment counts its backslash.
    assert_eq!(check(format!("#{}\\\n", "c".repeat(1_022))), (0, 0));
    assert_eq!(check(format!("#{}\\\n", "c".repeat(1_023))), (10, 1));
    assert_eq!(check(format!("#{}\\", "c".repeat(1_023))), (10, 1));
    assert_eq!(check("#\0\\"), (10, 1));
    assert_eq!(check("TAG+=\"a\"\\\n\0"), (10, 1));
    // A joined comment counts as a whole.
    assert_eq!(check(format!("\\\n#{}\\\nc", "c".repeat(1_023))), (10, 1));
}

#[test]
fn faults_name_the_first_physical_line() {
    let device = device_at("/a");
    assert_eq!(check("\n\\\nNAME\\\n=\"a\""), (11, 2));
    assert_eq!(check("TAG+=\"a\",\\\n\\\nTAG+=\"b\"x\nNAME"), (17, 1));
    assert_eq!(check("\\\nTAG+=\"a\"\nGOTO=\\\n\"x\"\n"), (19, 3));
    assert_eq!(refusal("\\\n\nTAG+=\"a\",\\\nMODE=\"8\"", &device), (34, 3));
    let full = "TAG+=\\\n\"a\"\n".repeat(512);
    assert_eq!(check(&full), (0, 0));
    assert_eq!(check(format!("{full}TAG+=\\\n\"a\"\n")), (18, 1_025));
}

#[test]
fn a_joined_rule_is_one_rule() {
    let device = tty_usb0();
    let text = "KERNELS==\"1-1\", \\\n\\\nTAG+=\"a\"\nTAG==\"a\"\n";
    let (answer, _) = run_from(text, &device, &Outcome::fresh(&device));
    assert_eq!((answer.visited, answer.tried), (2, 2));
    let pairs = vec!["TAG+=\"a\""; 33].join(",\\\n");
    assert_eq!(check(&pairs), (16, 1));
}

fn list(texts: &[&str]) -> JoinList {
    let device = tty_usb0();
    JoinList {
        texts: texts.iter().map(|text| text.as_bytes().to_vec()).collect(),
        device: device.encode(),
        outcome: Outcome::fresh(&device).encode(),
        sheet: EMPTY.to_vec(),
    }
}

#[test]
fn joined_texts() {
    let list = list(&[
        "TAG=\"a\"\\\n\n",
        "# c\\\n",
        "\\\nTAG+=\"b\"\n",
        "\\\nMODE=\"9\"",
    ]);
    assert_eq!(check_list(&Reference, &list), Ok(()));
    // After a comment's backslash a cut may stand, inside a join not.
    let text = "# c\\\nTAG+=\\\n\"a\"\n";
    let cut_after = |cut| CutText {
        text: text.as_bytes().to_vec(),
        cuts: vec![cut],
    };
    assert_eq!(check_cuts(&Reference, &cut_after(5)), Ok(()));
    assert_eq!(check_cuts(&Reference, &cut_after(16)), Ok(()));
    assert!(check_cuts(&Reference, &cut_after(12)).is_err());
}
