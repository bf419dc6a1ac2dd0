//! PROGRAM and RESULT: document 02, Item 6. The sheet itself is in sheets.rs.

mod common;

use common::*;
use reference::device::Device;
use reference::generate::joins::JoinList;
use reference::joined::{check_list, run_of};
use reference::outcome::Outcome;
use reference::request::Reference;
use reference::sheet::{Sheet, SheetEntry};

fn answer(command: &str, success: bool, output: &str) -> SheetEntry {
    SheetEntry {
        command: command.as_bytes().to_vec(),
        success,
        output: output.as_bytes().to_vec(),
    }
}

fn sheet_of(entries: &[SheetEntry]) -> Sheet {
    Sheet {
        entries: entries.to_vec(),
    }
}

/// Programs that say their names, and one that fails.
fn sheet() -> Sheet {
    sheet_of(&[
        answer("one", true, "one"),
        answer("two", true, "two\n"),
        answer("nothing", true, ""),
        answer("fails", false, "never said"),
        answer("probe ttyUSB0", true, "found"),
    ])
}

/// The outcome of an accepted run from the fresh record of ttyUSB0.
#[track_caller]
fn outcome_with(text: &str, sheet: &Sheet) -> Outcome {
    outcome_from(text, &Outcome::fresh(&tty_usb0()), sheet)
}

#[track_caller]
fn outcome_from(text: &str, start: &Outcome, sheet: &Sheet) -> Outcome {
    let device = tty_usb0();
    let (answer, record) = run_with(text, &device, start, sheet);
    assert_eq!((answer.number, answer.line), (0, 0), "{text}");
    Outcome::decode(&record, device.chain.len()).expect("a sound record")
}

#[track_caller]
fn stored(text: &str) -> String {
    string(&outcome_with(text, &sheet()).output)
}

#[track_caller]
fn matched(keys: &str) -> bool {
    let outcome = outcome_with(&format!("{keys}, TAG+=\"matched\""), &sheet());
    !outcome.tags.is_empty()
}

/// The number and line of a refused run for ttyUSB0.
#[track_caller]
fn refused(text: &str) -> (u32, u32) {
    refused_with(text, &sheet())
}

#[track_caller]
fn refused_with(text: &str, sheet: &Sheet) -> (u32, u32) {
    let device = tty_usb0();
    let (answer, record) = run_with(text, &device, &Outcome::fresh(&device), sheet);
    assert_ne!(answer.number, 0, "{text}");
    assert_eq!((answer.visited, answer.tried, answer.used), (0, 0, 0));
    assert!(record.is_empty());
    (answer.number, answer.line)
}

#[test]
fn operators_and_arguments() {
    for operator in ["==", "!=", "=", ":=", "+="] {
        assert_eq!(check(format!("PROGRAM{operator}\"x\"")), (0, 0));
    }
    assert_eq!(check("PROGRAM-=\"x\""), (13, 1));
    for operator in ["=", ":=", "+=", "-="] {
        assert_eq!(check(format!("RESULT{operator}\"x\"")), (13, 1));
    }
    assert_eq!(check("RESULT==\"x\", RESULT!=\"y\""), (0, 0));
    assert_eq!(check("PROGRAM{a}==\"x\""), (12, 1));
    assert_eq!(check("RESULT{a}==\"x\""), (12, 1));
    assert_eq!(check("PROGRAMS==\"x\""), (11, 1));
}

#[test]
fn a_command_is_a_template_and_a_result_a_pattern() {
    for operator in ["==", "!=", "=", ":=", "+="] {
        assert_eq!(check(format!("PROGRAM{operator}\"[\"")), (0, 0));
        assert_eq!(check(format!("PROGRAM{operator}\"$x\"")), (15, 1));
        assert_eq!(check(format!("PROGRAM{operator}\"%\"")), (15, 1));
    }
    assert_eq!(check("PROGRAM==\"\""), (0, 0));
    assert_eq!(check("RESULT==\"[\""), (15, 1));
    assert_eq!(check("RESULT==\"$x%\""), (0, 0));
    // A pattern would match where a command is only its own bytes.
    assert_eq!(refused("PROGRAM==\"on?\""), (35, 1));
}

#[test]
fn each_operator_but_unequal_holds_on_success() {
    for operator in ["==", "=", ":=", "+="] {
        assert!(matched(&format!("PROGRAM{operator}\"one\"")));
        assert!(!matched(&format!("PROGRAM{operator}\"fails\"")));
    }
    assert!(!matched("PROGRAM!=\"one\""));
    assert!(matched("PROGRAM!=\"fails\""));
}

#[test]
fn program_closes_nothing_and_assigns_nothing() {
    let outcome = outcome_with("PROGRAM:=\"one\"\nPROGRAM:=\"two\"", &sheet());
    let expected = Outcome {
        output: b"two".to_vec(),
        ..Outcome::fresh(&tty_usb0())
    };
    assert_eq!(outcome, expected);
}

#[test]
fn a_success_stores_its_output_without_trailing_newlines() {
    for (said, kept) in [
        ("a", "a"),
        ("a\n", "a"),
        ("a\n\n\n", "a"),
        ("\n", ""),
        ("", ""),
        ("a\nb\n", "a\nb"),
        ("\na\n", "\na"),
        ("a\r\n", "a\r"),
        ("a \n", "a "),
        ("a\n ", "a\n "),
    ] {
        let sheet = sheet_of(&[answer("x", true, said)]);
        let start = Outcome {
            output: b"before".to_vec(),
            ..Outcome::default()
        };
        let outcome = outcome_from("PROGRAM==\"x\"", &start, &sheet);
        assert_eq!(string(&outcome.output), kept, "{said:?}");
    }
}

#[test]
fn a_failure_leaves_the_stored_output_alone() {
    assert_eq!(stored("PROGRAM=\"one\"\nPROGRAM=\"fails\""), "one");
    assert_eq!(stored("PROGRAM=\"one\"\nPROGRAM!=\"fails\""), "one");
    assert_eq!(stored("PROGRAM!=\"fails\""), "");
    // A success without output stores that.
    assert_eq!(stored("PROGRAM=\"one\"\nPROGRAM=\"nothing\""), "");
}

#[test]
fn what_is_stored_stands_though_the_rule_fails() {
    assert_eq!(
        stored("PROGRAM=\"one\", PROGRAM=\"fails\", MODE=\"8\""),
        "one"
    );
    assert_eq!(
        stored("PROGRAM=\"one\", RESULT==\"two\", MODE=\"8\""),
        "one"
    );
    assert_eq!(stored("PROGRAM!=\"one\", MODE=\"8\""), "one");
}

#[test]
fn programs_are_asked_once_the_other_keys_hold() {
    // Wherever these stand, a rule that fails on one of them asks nothing.
    for key in [
        "KERNEL==\"x\"",
        "ATTRS{serial}==\"x\"",
        "ENV{A}==\"x\"",
        "TAG==\"x\"",
        "SYMLINK==\"x\"",
        "KERNELS==\"1-1\", SUBSYSTEMS==\"tty\"",
    ] {
        assert_eq!(stored(&format!("PROGRAM=\"one\", {key}")), "");
        assert_eq!(stored(&format!("{key}, PROGRAM=\"one\"")), "");
        assert_eq!(stored(&format!("PROGRAM=\"none\", {key}")), "");
        let long = "%p".repeat(100);
        assert_eq!(stored(&format!("PROGRAM=\"{long}\", {key}")), "");
    }
    assert_eq!(stored("PROGRAM=\"one\", KERNEL==\"ttyUSB0\""), "one");
}

#[test]
fn programs_are_asked_left_to_right_up_to_the_first_that_does_not_hold() {
    assert_eq!(stored("PROGRAM=\"one\", PROGRAM=\"two\""), "two");
    assert_eq!(stored("PROGRAM=\"two\", PROGRAM=\"one\""), "one");
    assert_eq!(
        stored("PROGRAM=\"one\", PROGRAM=\"fails\", PROGRAM=\"two\""),
        "one"
    );
    // It is the key that has to hold, not the program that has to succeed.
    assert_eq!(stored("PROGRAM!=\"fails\", PROGRAM=\"two\""), "two");
    assert_eq!(stored("PROGRAM!=\"one\", PROGRAM=\"two\""), "one");
    // What is not asked is not refused.
    assert_eq!(stored("PROGRAM=\"fails\", PROGRAM=\"none\""), "");
    assert_eq!(refused("PROGRAM!=\"fails\", PROGRAM=\"none\""), (35, 1));
    assert_eq!(stored("PROGRAM=\"one\", PROGRAM=\"one\""), "one");
}

#[test]
fn results_are_judged_last() {
    assert!(matched("RESULT==\"one\", PROGRAM=\"one\""));
    assert!(matched("PROGRAM=\"one\", RESULT==\"two\", PROGRAM=\"two\""));
    assert!(!matched(
        "PROGRAM=\"one\", RESULT==\"one\", PROGRAM=\"two\""
    ));
    // A result that does not hold keeps no program from being asked.
    assert_eq!(stored("RESULT==\"x\", PROGRAM=\"one\""), "one");
    assert_eq!(refused("RESULT==\"x\", PROGRAM=\"none\""), (35, 1));
    assert!(!matched("PROGRAM=\"one\", RESULT==\"one\", RESULT!=\"o*\""));
}

#[test]
fn a_result_is_matched_whole() {
    let sheet = sheet_of(&[answer("x", true, "a \t\n")]);
    let matches = |pattern: &str| {
        let text = format!("PROGRAM=\"x\", RESULT==\"{pattern}\", TAG+=\"t\"");
        !outcome_with(&text, &sheet).tags.is_empty()
    };
    assert!(matches("a \t"));
    assert!(!matches("a"));
    assert!(!matches("a "));
    assert!(matches("a*"));
    assert!(matches("x|a[ ]?"));
}

#[test]
fn a_result_with_nothing_stored_is_empty() {
    assert!(matched("RESULT==\"\""));
    assert!(matched("RESULT==\"*\""));
    assert!(!matched("RESULT!=\"*\""));
    assert!(matched("RESULT!=\"?*\""));
}

#[test]
fn a_result_without_a_program_judges_what_was_left() {
    let text = "PROGRAM=\"one\"\nRESULT==\"one\", TAG+=\"a\"\nRESULT==\"two\", TAG+=\"b\"";
    assert_eq!(strings(&outcome_with(text, &sheet()).tags), ["a"]);
    let start = Outcome {
        output: b"kept\n".to_vec(),
        ..Outcome::default()
    };
    let text = "RESULT==e\"kept\\n\", TAG+=\"a\"";
    assert_eq!(strings(&outcome_from(text, &start, &sheet()).tags), ["a"]);
}

#[test]
fn commands_are_substituted() {
    let sheet = sheet_of(&[
        answer("ttyUSB0 0 /devices/usb1/1-1/1-1:1.0/ttyUSB0", true, "names"),
        answer("1-1 usb RC-0417", true, "parent"),
        answer("  ", true, "no parent"),
        answer("a  b", true, "blanks"),
        answer("$%", true, "marks"),
    ]);
    let stored = |text: &str| string(&outcome_with(text, &sheet).output);
    assert_eq!(stored("PROGRAM=\"%k %n $devpath\""), "names");
    let parent = "PROGRAM=\"%b $driver $attr{serial}\", ATTRS{serial}==\"RC*\"";
    assert_eq!(stored(parent), "parent");
    assert_eq!(stored("PROGRAM=\"%b $driver %s{serial}\""), "no parent");
    // Commands are bytes: blanks count, and no byte is cleaned.
    assert_eq!(refused_with("PROGRAM=\"a b\"", &sheet), (35, 1));
    let escaped = "OPTIONS=\"string_escape=replace\", PROGRAM=\"a  b\"";
    assert_eq!(stored(escaped), "blanks");
    assert_eq!(stored("PROGRAM=\"$$%%\""), "marks");
}

#[test]
fn commands_see_the_properties_as_at_the_rules_start() {
    let sheet = sheet_of(&[answer("x old", true, "old"), answer("x new", true, "new")]);
    let text = "ENV{A}=\"old\"\nENV{A}=\"new\", PROGRAM=\"x $env{A}\", SYMLINK=\"$env{A}\"";
    let outcome = outcome_with(text, &sheet);
    assert_eq!(string(&outcome.output), "old");
    assert_eq!(strings(&outcome.links), ["new"]);
}

#[test]
fn commands_see_the_output_stored_by_then() {
    let sheet = sheet_of(&[
        answer("first", true, "a\n"),
        answer("next a", true, "b"),
        answer("next b", true, "c"),
        answer("next ", true, "empty"),
    ]);
    let stored = |text: &str| string(&outcome_with(text, &sheet).output);
    let next = "PROGRAM=\"next $result\"";
    assert_eq!(stored(&format!("PROGRAM=\"first\", {next}, {next}")), "c");
    assert_eq!(
        stored(&format!("PROGRAM=\"first\"\nPROGRAM=\"next %c\"")),
        "b"
    );
    assert_eq!(stored(next), "empty");
}

#[test]
fn result_in_assignments_is_what_the_rules_programs_stored() {
    let sheet = sheet_of(&[
        answer("name", true, "a b\n"),
        answer("mode", true, "0640"),
        answer("shared", true, "0666\n"),
        answer("lines", true, "a\nb"),
    ]);
    let outcome = outcome_with("SYMLINK=\"x-$result\", PROGRAM=\"name\"", &sheet);
    assert_eq!(strings(&outcome.links), ["x-a_b"]);
    let text = "PROGRAM=\"name\", OPTIONS=\"string_escape=none\", SYMLINK=\"%c\"";
    assert_eq!(strings(&outcome_with(text, &sheet).links), ["a", "b"]);
    let outcome = outcome_with("PROGRAM=\"mode\", MODE=\"%c\"", &sheet);
    assert_eq!(outcome.mode, Some(0o640));
    assert_eq!(
        refused_with("PROGRAM=\"shared\", MODE=\"%c\"", &sheet),
        (36, 1)
    );
    assert_eq!(
        refused_with("PROGRAM=\"lines\", OWNER=\"%c\"", &sheet),
        (33, 1)
    );
    assert_eq!(
        refused_with("PROGRAM=\"name\", GROUP=\"%c\"", &sheet),
        (33, 1)
    );
    // A value of ENV is literal.
    let outcome = outcome_with("PROGRAM=\"name\", ENV{A}=\"$result{\"", &sheet);
    assert_eq!(string(&outcome.properties[0].value), "$result{");
}

#[test]
fn result_in_a_run_is_filled_in_by_the_close() {
    let device = tty_usb0();
    let text = "PROGRAM=\"one\", RUN+=\"say $result\"\nPROGRAM=\"two\"";
    let outcome = outcome_with(text, &sheet());
    let (number, _, list) = close(&device, &outcome);
    assert_eq!(number, 0);
    assert_eq!(list, b"\x08\x00\xe0say two");
    let listing = reference::listing(
        text.as_bytes(),
        &device.encode(),
        None,
        Some(&sheet().encode()),
    );
    let expected = "visited 2\ntried 0\npriority 0\nprogram say two\n";
    assert_eq!(string(&listing), expected);
    let without = reference::listing(text.as_bytes(), &device.encode(), None, None);
    assert_eq!(string(&without), "refused 35 line 1\n");
}

#[test]
fn a_brace_after_result_is_a_content_fault() {
    for template in ["$result{1}", "%c{1}", "$result{", "x%c{2+}"] {
        for pair in [
            "PROGRAM=",
            "SYMLINK+=",
            "RUN+=",
            "MODE=",
            "OWNER=",
            "GROUP=",
        ] {
            assert_eq!(
                check(format!("{pair}\"{template}\"")),
                (15, 1),
                "{template}"
            );
        }
    }
    for template in [
        "$result",
        "%c",
        "$result {",
        "%%c{",
        "$$result{",
        "$resultx",
        "%cx",
    ] {
        assert_eq!(check(format!("RUN+=\"{template}\"")), (0, 0), "{template}");
    }
    // Elsewhere the bytes mean nothing.
    assert_eq!(
        check("KERNEL==\"%c{\", ENV{A}=\"$result{\", TAG+=\"%c{\""),
        (0, 0)
    );
    let outcome = outcome_with("PROGRAM=\"one\", SYMLINK=\"$resultx %cy\"", &sheet());
    assert_eq!(strings(&outcome.links), ["onex", "oney"]);
}

#[test]
fn result_in_the_templates_of_a_record() {
    let outcome = outcome_with("RUN+=\"$result\", RUN+=\"%c\"", &Sheet::default());
    let device = tty_usb0().encode();
    // Of either edition; a template alone does not make a record too new for edition 1.
    let mut old = vec![0; reference::sizes::OLD_OUTCOME_TARGET];
    let there = reference::older(&device, &outcome.encode(), &mut old);
    assert_eq!(there.number, 0);
    let mut new = vec![0; reference::sizes::OUTCOME_TARGET];
    let back = reference::newer(&device, &old[..there.used as usize], &mut new);
    assert_eq!(
        (back.number, &new[..back.used as usize]),
        (0, &outcome.encode()[..])
    );
    // A brace after it is a fault of the record.
    let outcome = outcome_with("RUN+=\"$resultx\"", &Sheet::default());
    let mut faulty = outcome.encode();
    *faulty.last_mut().expect("a template") = b'{';
    let start = reference::run(b"", &device, &faulty, reference::sheet::EMPTY, &mut new);
    assert_eq!(start.number, 4);
}

#[test]
fn refusal_30_is_of_commands_over_512() {
    let sheet = sheet_of(&[
        answer("long", true, &"o".repeat(509)),
        answer(&format!("{}abc", "o".repeat(509)), true, "found"),
    ]);
    let asked = |end: &str| format!("PROGRAM=\"long\"\n\nPROGRAM=\"%c{end}\"");
    assert_eq!(string(&outcome_with(&asked("abc"), &sheet).output), "found");
    assert_eq!(refused_with(&asked("abcd"), &sheet), (30, 3));
    // Over 512 it is 30, and else 35.
    assert_eq!(refused_with(&asked("abd"), &sheet), (35, 3));
}

#[test]
fn refusal_35_is_of_commands_that_are_not_on_the_sheet() {
    assert_eq!(refused("TAG+=\"a\"\n\nPROGRAM=\"none\""), (35, 3));
    assert_eq!(refused("PROGRAM!=\"none\""), (35, 1));
    assert_eq!(refused("PROGRAM=\"one \""), (35, 1));
    assert_eq!(refused("PROGRAM=\"\""), (35, 1));
    assert_eq!(refused("PROGRAM=\"$env{NONE}\""), (35, 1));
    assert_eq!(refused("PROGRAM\\\n=\"none\""), (35, 1));
    assert_eq!(refused("\\\n\\\nPROGRAM=\"none\""), (35, 1));
    assert_eq!(refused_with("PROGRAM=\"one\"", &Sheet::default()), (35, 1));
}

#[test]
fn programs_come_before_assignments() {
    assert_eq!(refused("SYMLINK=\"/\", PROGRAM=\"none\""), (35, 1));
    assert_eq!(refused("SYMLINK=\"/\", PROGRAM=\"one\""), (31, 1));
    assert_eq!(refused("MODE=\"8\"\nPROGRAM=\"none\""), (34, 1));
}

#[test]
fn devices_tried_do_not_depend_on_programs() {
    let tried = |text: &str| {
        let device = tty_usb0();
        let (answer, _) = run_with(text, &device, &Outcome::fresh(&device), &sheet());
        assert_eq!(answer.number, 0, "{text}");
        (answer.visited, answer.tried)
    };
    assert_eq!(tried("ATTRS{serial}==\"RC*\", PROGRAM=\"fails\""), (1, 2));
    assert_eq!(tried("RESULT==\"x\", ATTRS{serial}==\"RC*\""), (1, 2));
    assert_eq!(tried("ATTRS{serial}==\"x\", PROGRAM=\"one\""), (1, 2));
    assert_eq!(
        tried("KERNEL==\"x\", ATTRS{serial}==\"RC*\", PROGRAM=\"one\""),
        (1, 0)
    );
}

#[test]
fn a_rule_that_fails_on_its_program_does_not_jump() {
    let text = "PROGRAM=\"fails\", GOTO=\"end\"\nTAG+=\"a\"\nLABEL=\"end\"";
    assert_eq!(strings(&outcome_with(text, &sheet()).tags), ["a"]);
    let text = "PROGRAM=\"one\", GOTO=\"end\"\nTAG+=\"a\"\nLABEL=\"end\"";
    assert!(outcome_with(text, &sheet()).tags.is_empty());
}

#[test]
fn programs_count_among_the_pairs() {
    let pairs = |count| vec!["PROGRAM=\"one\""; count].join(",");
    assert_eq!(check(pairs(32)), (0, 0));
    assert_eq!(check(pairs(33)), (16, 1));
}

#[test]
fn the_writer_keeps_the_operators() {
    let text = "PROGRAM=\"a\",PROGRAM==\"b\",PROGRAM:=\"c\",PROGRAM+=\"d\",RESULT!=\"e\"\n";
    let mut target = vec![0; reference::sizes::TEXT];
    let answer = reference::write(text.as_bytes(), &mut target);
    assert_eq!(string(&target[..answer.used as usize]), text);
}

#[test]
fn joined_texts_with_one_sheet() {
    let device: Device = tty_usb0();
    let list = |texts: &[&str]| JoinList {
        texts: texts.iter().map(|text| text.as_bytes().to_vec()).collect(),
        device: device.encode(),
        outcome: Outcome::fresh(&device).encode(),
        sheet: sheet().encode(),
    };
    let answer_of = |texts: &[&str]| {
        let list = list(texts);
        assert_eq!(check_list(&Reference, &list), Ok(()));
        run_of(&Reference, &list, &list.texts.concat(), &list.outcome).answer
    };
    // A result of the second text may rest on a program of the first.
    let texts = ["PROGRAM=\"one\"\n", "RESULT==\"one\", SYMLINK=\"/\"\n"];
    assert_eq!(answer_of(&texts)[..2], [31, 2]);
    let texts = ["PROGRAM=\"one\"\n", "\n", "RESULT==\"two\", SYMLINK=\"/\""];
    assert_eq!(answer_of(&texts)[..3], [0, 0, 2]);
    let texts = ["PROGRAM=\"one\"\n\n", "PROGRAM=\"none\""];
    assert_eq!(answer_of(&texts)[..2], [35, 3]);
}
