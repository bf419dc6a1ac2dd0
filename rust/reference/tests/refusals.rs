//! Each refusal, and the order in which they are given.

mod common;

use common::*;
use reference::outcome::{Outcome, Run, RunType};
use reference::sheet::EMPTY;
use reference::sizes::{OUTCOME_TARGET, RUN_LIST_TARGET};
use reference::template::Template;
use reference::Device;

/// Checks that each line is refused with the number, alone and after other lines.
fn assert_each(number: u32, lines: &[&str]) {
    for line in lines {
        assert_eq!(check(line), (number, 1), "{line}");
        let later = format!("# first\n\nTAG+=\"a\"\n{line}\nNAME");
        assert_eq!(check(&later), (number, 4), "{line}");
    }
}

fn assert_accepted(lines: &[&str]) {
    for line in lines {
        assert_eq!(check(line), (0, 0), "{line}");
    }
}

fn run_number(text: &str, device: &[u8], outcome: &[u8], room: usize) -> (u32, u32) {
    let mut target = vec![0xAA; room];
    let answer = reference::run(text.as_bytes(), device, outcome, EMPTY, &mut target);
    assert_eq!((answer.visited, answer.used), (0, 0));
    assert!(target.iter().all(|&byte| byte == 0));
    (answer.number, answer.line)
}

#[test]
fn refusal_1_target() {
    let device = tty_usb0().encode();
    let outcome = Outcome::default().encode();
    for room in [0, 1, 11, RUN_LIST_TARGET, OUTCOME_TARGET - 1] {
        assert_eq!(run_number("", &device, &outcome, room), (1, 0));
        let mut target = vec![0xAA; room];
        assert_eq!(reference::fresh(&device, &mut target).number, 1);
        assert!(target.iter().all(|&byte| byte == 0));
    }
    for room in [0, 1, RUN_LIST_TARGET - 1] {
        let mut target = vec![0xAA; room];
        assert_eq!(reference::close(&device, &outcome, &mut target).number, 1);
        assert!(target.iter().all(|&byte| byte == 0));
    }
    let mut target = vec![0xAA; RUN_LIST_TARGET];
    assert_eq!(reference::close(&device, &outcome, &mut target).number, 0);
    let mut target = vec![0xAA; OUTCOME_TARGET];
    assert_eq!(reference::fresh(&device, &mut target).number, 0);
}

#[test]
fn refusal_2_text() {
    assert_eq!(check(vec![b'\n'; 32_768]), (0, 0));
    assert_eq!(check(vec![b'\n'; 32_769]), (2, 0));
    assert_eq!(check(vec![b'x'; 32_769]), (2, 0));
    assert_eq!(check(vec![0; 40_000]), (2, 0));
}

#[test]
fn refusal_3_and_4_records() {
    let device = tty_usb0().encode();
    let outcome = Outcome::default().encode();
    assert_eq!(
        run_number("", &device[1..], &outcome, OUTCOME_TARGET),
        (3, 0)
    );
    assert_eq!(run_number("", &[], &outcome, OUTCOME_TARGET), (3, 0));
    assert_eq!(
        run_number("", &device, &outcome[1..], OUTCOME_TARGET),
        (4, 0)
    );
    assert_eq!(run_number("", &device, &[], OUTCOME_TARGET), (4, 0));
}

#[test]
fn refusal_10_line() {
    let long = |start: &str, length: usize| format!("{start:length$}");
    assert_each(
        10,
        &[
            &long("TAG+=\"a\"", 1_025),
            &long("# comment", 1_025),
            &long("", 1_025),
            "# NUL \0",
            "\0",
            "TAG+=\"\0\"",
            &long("NAME", 2_000),
        ],
    );
    assert_accepted(&[
        &long("TAG+=\"a\"", 1_024),
        &long("#", 1_024),
        &long("", 1_024),
    ]);
}

#[test]
fn refusal_11_key() {
    assert_each(
        11,
        &[
            "NAME=\"x\"",
            "IMPORT{file}=\"x\"",
            "TEST==\"x\"",
            "TAGS==\"x\"",
            "kernel==\"x\"",
            "KERNELSX==\"x\"",
            "==\"x\"",
            "\"x\"",
            "x",
            ",",
            ", TAG+=\"a\"",
            "TAG+=\"a\",",
            "TAG+=\"a\", \t",
            "TAG+=\"a\",,TAG+=\"b\"",
            "TAG+=\"a\", # no pair",
            "\rTAG+=\"a\"",
            "\u{b}# no blank before",
        ],
    );
    assert_accepted(&["", " \t ", "#", "\t # NAME", " TAG+=\"a\" , TAG+=\"b\"\t"]);
}

#[test]
fn refusal_12_argument() {
    let long = format!("ENV{{{}}}=\"x\"", "k".repeat(65));
    assert_each(
        12,
        &[
            "ATTR==\"x\"",
            "ATTR",
            "ATTR {a}==\"x\"",
            "ATTR{}==\"x\"",
            "ATTRS{a",
            "ENV{a=\"x\"",
            "ENVa{b}=\"x\"",
            "KERNEL{a}==\"x\"",
            "KERNEL{}==\"x\"",
            "TAG{=\"x\"",
            "RUN{}=\"x\"",
            "RUN{other}=\"x\"",
            "RUN{program=\"x\"",
            "RUN{ program}=\"x\"",
            &long,
        ],
    );
    let long = format!("ENV{{{}}}=\"x\"", "k".repeat(64));
    assert_accepted(&[
        "ATTR{ a\"{b }==\"x\"",
        "RUN{program}=\"x\"",
        "RUN{builtin}=\"x\"",
        &long,
    ]);
}

#[test]
fn refusal_13_operator() {
    assert_each(
        13,
        &[
            "KERNEL",
            "KERNEL\"x\"",
            "KERNELx==\"x\"",
            "KERNEL {a}==\"x\"",
            "KERNEL!\"x\"",
            "RUN {program}=\"x\"",
            "ENV{a} {b}=\"x\"",
            "SYMLINK+ =\"x\"",
            "SYMLINK:\"x\"",
        ],
    );
}

#[test]
fn refusal_13_operators_of_each_key() {
    let all = ["==", "!=", "=", "+=", "-=", ":="];
    let matching: &[&str] = &["==", "!="];
    let keys: [(&str, &[&str]); 22] = [
        ("ACTION", matching),
        ("DEVPATH", matching),
        ("KERNEL", matching),
        ("KERNELS", matching),
        ("SUBSYSTEM", matching),
        ("SUBSYSTEMS", matching),
        ("DRIVER", matching),
        ("DRIVERS", matching),
        ("ATTR{a}", matching),
        ("ATTRS{a}", matching),
        ("ENV{a}", &["==", "!=", "="]),
        ("SYMLINK", &all),
        ("TAG", &all),
        ("OWNER", &["=", ":="]),
        ("GROUP", &["=", ":="]),
        ("MODE", &["=", ":="]),
        ("RUN", &["=", "+=", ":="]),
        ("RUN{program}", &["=", "+=", ":="]),
        ("RUN{builtin}", &["=", "+=", ":="]),
        ("LABEL", &["="]),
        ("GOTO", &["="]),
        ("OPTIONS", &["=", "+="]),
    ];
    for (key, own) in keys {
        let value = if key == "OPTIONS" {
            "string_escape=none"
        } else {
            "7"
        };
        for operator in all {
            let number = if own.contains(&operator) { 0 } else { 13 };
            let line = if number == 0 { 0 } else { 1 };
            let text = format!("{key} {operator}\t\"{value}\"\nLABEL=\"7\"");
            assert_eq!(check(&text), (number, line), "{text}");
        }
    }
}

#[test]
fn refusal_14_value() {
    let long = format!("ENV{{a}}=\"{}\"", "v".repeat(257));
    let long_with_marks = format!("ENV{{a}}=\"{}\"", "\\\"".repeat(257));
    assert_each(
        14,
        &[
            "KERNEL==",
            "KERNEL==x",
            "KERNEL==\"",
            "KERNEL==\"x",
            "KERNEL==\"x\\\"",
            "KERNEL==\"\\\\\"",
            "KERNEL==='x'",
            "KERNEL===\"x\"",
            "TAG= =\"x\"",
            "TAG=+\"x\"",
            &long,
            &long_with_marks,
        ],
    );
    let long = format!("ENV{{a}}=\"{}\"", "v".repeat(256));
    let long_with_marks = format!("ENV{{a}}=\"{}\"", "\\\"".repeat(256));
    assert_accepted(&[&long, &long_with_marks, "ENV{a}=\"\\\\\\\"\""]);
}

#[test]
fn refusal_15_patterns() {
    assert_each(
        15,
        &[
            "KERNEL==\"[\"",
            "KERNEL!=\"[a\"",
            "KERNEL==\"[]\"",
            "KERNEL==\"[!\"",
            "KERNEL==\"[!]\"",
            "KERNEL==\"x|[\"",
            "KERNEL==\"[a|b]\"",
            "KERNEL==\"[b-a]\"",
            "KERNEL==\"[!b-a]\"",
            "KERNEL==\"[a-cz-x]\"",
            "KERNEL==\"[a--]\"",
            "SYMLINK==\"[\"",
            "TAG!=\"[\"",
            "ENV{a}==\"[\"",
            "ATTRS{a}==\"[\"",
        ],
    );
    assert_accepted(&[
        "KERNEL==\"\"",
        "KERNEL==\"|\"",
        "KERNEL==\"[]]\"",
        "KERNEL==\"[!]]\"",
        "KERNEL==\"[a-]\"",
        "KERNEL==\"[-a]\"",
        "KERNEL==\"[a-a]\"",
        "KERNEL==\"[a-c-b]\"",
        "KERNEL==\"]\"",
        "KERNEL==\"$x%y\"",
    ]);
}

#[test]
fn refusal_15_templates() {
    let faulty = [
        "$",
        "%",
        "$x",
        "%x",
        "$$$",
        "%%%",
        "$%",
        "%$",
        "$ kernel",
        "$KERNEL",
        "$kerne",
        "$i",
        "$attr",
        "$attr{",
        "$attr{}",
        "$attr{a",
        "$attr {a}",
        "$env",
        "%s",
        "%s{}",
        "%E",
        "%E{a",
        "%K",
        "%c{",
        "%c{1}",
        "%N",
        "%P",
        "$result{1}",
        "$name",
        "$links",
        "$sys",
        "$devnode",
    ];
    let sound = [
        "",
        "$$",
        "%%",
        "$kernel",
        "%k",
        "$result",
        "%c",
        "$number",
        "%n",
        "$devpath",
        "%p",
        "$id",
        "%b",
        "$driver",
        "$attr{a}",
        "%s{a}",
        "$env{a}",
        "%E{a}",
        "$major",
        "%M",
        "$minor",
        "%m",
        "$idx",
        "$kernels",
        "%kk",
        "$$kernel",
        "%%x",
        "$attr{ a{$%}",
        "{}",
    ];
    let long = |length: usize| format!("$attr{{{}}}", "a".repeat(length));
    let keys = [
        "SYMLINK=",
        "SYMLINK+=",
        "SYMLINK-=",
        "SYMLINK:=",
        "OWNER=",
        "OWNER:=",
        "GROUP=",
        "GROUP:=",
        "MODE=",
        "MODE:=",
        "RUN=",
        "RUN+=",
        "RUN:=",
        "RUN{builtin}=",
    ];
    for key in keys {
        for template in faulty {
            assert_eq!(
                check(format!("{key}\"{template}\"")),
                (15, 1),
                "{key}{template}"
            );
        }
        for template in sound {
            assert_eq!(
                check(format!("{key}\"{template}\"")),
                (0, 0),
                "{key}{template}"
            );
        }
        assert_eq!(check(format!("{key}\"{}\"", long(65))), (15, 1));
        assert_eq!(check(format!("{key}\"{}\"", long(64))), (0, 0));
    }
}

#[test]
fn refusal_15_other_content() {
    let tag = |operator: &str, length: usize| format!("TAG{operator}\"{}\"", "t".repeat(length));
    assert_each(
        15,
        &[
            "OPTIONS=\"\"",
            "OPTIONS=\"Watch\"",
            "OPTIONS=\"watch \"",
            "OPTIONS=\"watch nowatch\"",
            "OPTIONS=\"string_escape\"",
            "OPTIONS=\"string_escape=\"",
            "OPTIONS=\"string_escape=None\"",
            "OPTIONS=\" string_escape=none\"",
            "OPTIONS=\"string_escape=none,link_priority=1\"",
            "OPTIONS+=\"link_priority=\"",
            "OPTIONS+=\"link_priority=-\"",
            "OPTIONS+=\"link_priority=+1\"",
            "OPTIONS+=\"link_priority=--1\"",
            "OPTIONS+=\"link_priority=1 \"",
            "OPTIONS+=\"link_priority=0x1\"",
            "OPTIONS+=\"link_priority=00000000001\"",
            "OPTIONS+=\"link_priority=9999999999\"",
            "LABEL=\"\"",
            "GOTO=\"\"",
            &tag("=", 65),
            &tag("+=", 65),
            &tag("-=", 65),
            &tag(":=", 65),
        ],
    );
    assert_accepted(&[
        "OPTIONS=\"link_priority=0000000001\"",
        "OPTIONS=\"link_priority=-0\"",
        &tag("=", 64),
        &tag("==", 256),
        "TAG=\"$[%\"",
        "ENV{a}=\"$[%\"",
        "LABEL=\"$[%\"",
    ]);
}

#[test]
fn refusal_16_pairs() {
    let pairs = |count| vec!["TAG+=\"a\""; count].join(",");
    assert_each(
        16,
        &[
            &pairs(33),
            &pairs(40),
            "LABEL=\"a\", LABEL=\"b\"",
            "LABEL=\"a\", LABEL=\"a\"",
            "GOTO=\"a\", TAG+=\"x\", GOTO=\"a\"",
        ],
    );
    assert_accepted(&[&pairs(32), "LABEL=\"a\", GOTO=\"a\"\nLABEL=\"a\""]);
}

#[test]
fn refusal_17_separator() {
    assert_each(
        17,
        &[
            "KERNEL==\"x\" TAG+=\"a\"",
            "KERNEL==\"x\"TAG+=\"a\"",
            "KERNEL==\"x\"\"y\"",
            "KERNEL==\"x\" # comment",
            "KERNEL==\"x\";",
            "KERNEL==\"x\"\r",
        ],
    );
}

#[test]
fn refusal_18_rules() {
    let rules = |count: usize| "TAG+=\"a\"\n".repeat(count);
    assert_eq!(check(rules(512)), (0, 0));
    assert_eq!(check(rules(513)), (18, 513));
    assert_eq!(check(format!("# comment\n\n{}# last", rules(512))), (0, 0));
    assert_eq!(check(format!("# comment\n\n{}", rules(600))), (18, 515));
}

#[test]
fn refusal_19_jump() {
    assert_eq!(check("GOTO=\"a\""), (19, 1));
    assert_eq!(check("LABEL=\"a\"\nGOTO=\"a\""), (19, 2));
    assert_eq!(check("LABEL=\"a\", GOTO=\"a\""), (19, 1));
    assert_eq!(check("\nGOTO=\"a\"\nLABEL=\"A\"\nLABEL=\"a \""), (19, 2));
    assert_eq!(
        check("GOTO=\"a\"\nGOTO=\"b\"\nLABEL=\"a\"\nGOTO=\"c\""),
        (19, 2)
    );
    assert_eq!(check("GOTO=\"a*\"\nLABEL=\"ab\""), (19, 1));
    assert_eq!(check("GOTO=\"a\"\n# LABEL=\"a\""), (19, 1));
    assert_eq!(
        check("GOTO=\"a\"\nGOTO=\"a\"\nKERNEL==\"x\", LABEL=\"a\""),
        (0, 0)
    );
}

/// A device with a property A of 256 bytes and a property B of 255.
fn device_with_long_properties() -> Device {
    device_with(&[("A", &"0".repeat(256)), ("B", &"0".repeat(255))])
}

#[test]
fn refusal_30_substituted() {
    let device = device_with_long_properties();
    for key in ["OWNER", "GROUP", "MODE", "SYMLINK"] {
        let too_long = format!("\n{key}=\"$env{{A}}$env{{B}}xx\"");
        assert_eq!(refusal(&too_long, &device), (30, 2), "{key}");
        let just_fits = format!("\n{key}=\"$env{{A}}$env{{A}}\"");
        assert_ne!(refusal(&just_fits, &device).0, 30, "{key}");
    }
    let spaces = " ".repeat(200);
    let text = format!("SYMLINK-=\"%E{{A}}%E{{B}}{spaces}\"");
    assert_eq!(refusal(&text, &device), (30, 1));
}

#[test]
fn refusal_30_of_close() {
    let device = device_with_long_properties();
    let outcome = outcome_of("\nRUN=\"$env{A}$env{A}\"", &device);
    assert_eq!(close(&device, &outcome).0, 0);
    let outcome = outcome_of("\nRUN=\"$env{A}$env{A}x\"", &device);
    let (number, line, record) = close(&device, &outcome);
    assert_eq!((number, line, record.len()), (30, 0, 0));
    let outcome = outcome_of("RUN=\"x\"\nRUN+=\"$env{A}$env{B}xx\"\nRUN+=\"x\"", &device);
    assert_eq!(close(&device, &outcome).0, 30);
}

#[test]
fn refusal_31_link() {
    let device = device_with(&[("A", "/a"), ("B", "")]);
    let long = "l".repeat(129);
    for name in [
        "/a",
        "/",
        "a/",
        "a//b",
        ".",
        "..",
        "./a",
        "a/.",
        "a/../b",
        "b ../a",
        "$env{A}",
        "%p",
        "a/$env{B}/b",
        &long,
    ] {
        for operator in ["=", "+=", "-=", ":="] {
            let text = format!("# first\nSYMLINK{operator}\"{name}\"");
            assert_eq!(refusal(&text, &device), (31, 2), "{text}");
        }
    }
    let long = "l".repeat(128);
    for name in ["...", ".a", "a.", "a/b", "..a/b", &long] {
        assert_eq!(links_of(&format!("SYMLINK=\"{name}\""), &device), [name]);
    }
}

#[test]
fn refusal_32_lists() {
    let device = device_at("/a");
    let lines = |pair: fn(usize) -> String, count: usize| -> String {
        (0..count).map(|i| pair(i) + "\n").collect()
    };
    let link: fn(usize) -> String = |i| format!("SYMLINK+=\"{i}\"");
    let tag: fn(usize) -> String = |i| format!("TAG+=\"{i}\"");
    let run: fn(usize) -> String = |i| format!("RUN+=\"{i}\"");
    let property: fn(usize) -> String = |i| format!("ENV{{{i}}}=\"v\"");
    for (pair, limit) in [(link, 16), (tag, 16), (run, 16), (property, 32)] {
        outcome_of(&lines(pair, limit), &device);
        let line = limit as u32 + 1;
        assert_eq!(refusal(&lines(pair, limit + 1), &device), (32, line));
    }
}

#[test]
fn refusal_33_owner_and_group() {
    let device = device_with(&[("A", "a b")]);
    let long = "o".repeat(33);
    for key in ["OWNER", "GROUP"] {
        for name in [
            "",
            "a b",
            "a/b",
            "a:",
            "\u{e4}",
            "$env{A}",
            "$env{none}",
            &long,
        ] {
            for operator in ["=", ":="] {
                let text = format!("{key}{operator}\"{name}\"");
                assert_eq!(refusal(&text, &device), (33, 1), "{text}");
            }
        }
    }
    let long = "o".repeat(32);
    assert_eq!(
        outcome_of(&format!("OWNER=\"{long}\", GROUP=\"aZ0_-.\""), &device).owner,
        Some(long.into_bytes())
    );
}

#[test]
fn refusal_34_mode() {
    let device = device_with(&[("A", "8")]);
    for mode in [
        "", "8", "888", "00660", "0x1", "-1", " 7", "7 ", "a", "%E{A}", "%E{B}",
    ] {
        for operator in ["=", ":="] {
            let text = format!("MODE{operator}\"{mode}\"");
            assert_eq!(refusal(&text, &device), (34, 1), "{text}");
        }
    }
    let mode = |text: &str| outcome_of(text, &device).mode;
    assert_eq!(mode("MODE=\"0\""), Some(0));
    assert_eq!(mode("MODE=\"7775\""), Some(4_093));
    assert_eq!(mode("MODE=\"%n0\""), Some(24));
}

#[test]
fn order_of_text_refusals_within_a_pair() {
    for (line, number) in [
        // Each line has the faults of all later numbers, too.
        ("NAME{a}~x", 11),
        ("KERNEL{a}~x", 12),
        ("KERNEL=x", 13),
        ("KERNEL==\"[", 14),
        ("KERNEL==\"[\" x", 15),
        ("LABEL=\"a\", LABEL=\"b\" x", 16),
        ("LABEL=\"a\", LABEL=\"\" x", 15),
        ("KERNEL==\"a\" x", 17),
        ("KERNEL==\"a\" x, NAME", 17),
    ] {
        assert_eq!(check(line), (number, 1), "{line}");
    }
}

#[test]
fn order_of_text_refusals_over_pairs_and_lines() {
    let pairs = vec!["TAG+=\"a\""; 32].join(",");
    assert_eq!(check(format!("{pairs},NAME=\"x\"")), (11, 1));
    assert_eq!(check(format!("{pairs},")), (11, 1));
    assert_eq!(check(format!("{pairs},TAG+=\"a\" x")), (16, 1));
    assert_eq!(check(format!("{pairs} x")), (17, 1));

    let rules = "TAG+=\"a\"\n".repeat(512);
    assert_eq!(check(format!("{rules}KERNEL=\"x\"")), (13, 513));
    assert_eq!(check(format!("{rules}TAG+=\"a\" x")), (17, 513));
    assert_eq!(check(format!("{rules}TAG+=\"a\"\nNAME")), (18, 513));
    assert_eq!(check(format!("{rules}\n# \0")), (10, 514));

    assert_eq!(check("NAME\n\0"), (11, 1));
    assert_eq!(check("NAME \0"), (10, 1));
    assert_eq!(check("GOTO=\"a\"\nNAME"), (11, 2));
    assert_eq!(check(format!("GOTO=\"a\"\n{rules}")), (18, 513));
}

#[test]
fn order_of_all_refusals_of_a_run() {
    let device = tty_usb0().encode();
    let outcome = Outcome::default().encode();
    let too_long = "x".repeat(32_769);
    let room = OUTCOME_TARGET;
    assert_eq!(run_number(&too_long, &[], &[], room - 1), (1, 0));
    assert_eq!(run_number(&too_long, &[], &[], room), (2, 0));
    assert_eq!(run_number("\nNAME", &[], &[], room), (11, 2));
    assert_eq!(run_number("\nGOTO=\"a\"", &[], &[], room), (19, 2));
    assert_eq!(run_number("\nSYMLINK=\"/\"", &[], &[], room), (3, 0));
    assert_eq!(run_number("\nSYMLINK=\"/\"", &device, &[], room), (4, 0));
    assert_eq!(
        run_number("\nSYMLINK=\"/\"", &device, &outcome, room),
        (31, 2)
    );
}

#[test]
fn order_of_refusals_of_fresh_and_close() {
    let device = tty_usb0().encode();
    let mut target = vec![0xAA; OUTCOME_TARGET - 1];
    assert_eq!(reference::fresh(&[], &mut target).number, 1);
    let too_long = Outcome {
        properties: vec![property("A", &"v".repeat(256))],
        runs: vec![Run {
            run_type: RunType::Program,
            matched: 2,
            template: Template::read(b"$env{A}$env{A}x").expect("a well formed template"),
        }],
        ..Outcome::default()
    };
    let too_long = too_long.encode();
    let mut target = vec![0xAA; RUN_LIST_TARGET - 1];
    assert_eq!(reference::close(&[], &[], &mut target).number, 1);
    let mut target = vec![0xAA; RUN_LIST_TARGET];
    assert_eq!(reference::close(&[], &[], &mut target).number, 3);
    let without_parent = device_at("/a").encode();
    assert_eq!(
        reference::close(&without_parent, &too_long, &mut target).number,
        4
    );
    assert_eq!(reference::close(&device, &too_long, &mut target).number, 30);
}

#[test]
fn order_of_refusals_of_links() {
    let device = device_with(&[("A", &"v".repeat(256))]);
    let full = "SYMLINK=\"1 2 3 4 5 6 7 8 9 10 11 12 13 14 15 16\"\n";
    let on_full = |pair: &str| refusal(&format!("{full}{pair}"), &device).0;
    // A name that is unsound and would be the seventeenth.
    assert_eq!(on_full("SYMLINK+=\"../x\""), 31);
    // Name by name.
    assert_eq!(on_full("SYMLINK+=\"17 ../x\""), 32);
    assert_eq!(on_full("SYMLINK+=\"../x 17\""), 31);
    assert_eq!(on_full("SYMLINK+=\"16 ../x\""), 31);
    // The whole text first.
    assert_eq!(on_full("SYMLINK+=\"/ 17 $env{A}$env{A}\""), 30);
    // The rule's assignments from left to right.
    assert_eq!(on_full("MODE=\"8\", SYMLINK+=\"/\""), 34);
    assert_eq!(on_full("SYMLINK+=\"/\", MODE=\"8\""), 31);
}
