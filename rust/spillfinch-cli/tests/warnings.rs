//! The warnings of `spillfinch check`: where each is given, and where it is not.

mod common;

use common::Folder;

/// The numbers, lines and columns of the warnings of a text that is accepted.
fn warnings(folder: &Folder, text: &str, more: &[&str]) -> String {
    let arguments = [&["check", "--format=json", "-"], more].concat();
    let said = folder.run_with(&arguments, text);
    assert_eq!(said.status, 0, "{text:?}: {}", said.out);
    let warning = |line: &str| {
        let member = |name: &str| {
            let (_, rest) = line.split_once(&format!("\"{name}\": "))?;
            rest.split(',').next().map(str::to_string)
        };
        let number = member("warning")?.replace('"', "");
        Some(format!(
            "{number}:{}:{}",
            member("line")?,
            member("column")?
        ))
    };
    let found: Vec<String> = said.out.lines().filter_map(warning).collect();
    found.join(" ")
}

#[test]
fn each_difference() {
    let folder = Folder::new("warnings_each");
    for (text, expected) in [
        // The order of assignments.
        ("SYMLINK+=\"x$env{X}\", ENV{X}=\"v\"", "E1:1:12"),
        ("SYMLINK+=\"x$env{X}\", ENV{Y}=\"v\"", ""),
        ("ENV{X}=\"v\", SYMLINK+=\"x$env{X}\"", ""),
        ("ENV{X}=\"v\", MODE=\"0640\", OWNER=\"%E{X}\"", "E1:1:33"),
        ("OWNER=\"$env{X}\", ENV{X}=\"v\", MODE=\"0640\"", ""),
        ("SYMLINK+=\"a\", OPTIONS+=\"string_escape=none\"", "E1:1:15"),
        ("OPTIONS+=\"string_escape=none\", SYMLINK+=\"a\"", ""),
        ("SYMLINK+=\"a\", OPTIONS+=\"link_priority=1\"", ""),
        ("RUN+=\"a\", RUN{builtin}+=\"kmod load\"", "E1:1:11"),
        ("RUN{builtin}+=\"kmod load\", RUN+=\"a\"", ""),
        // Missing attributes.
        ("ATTR{a}!=\"b\", TAG+=\"t\"", "E2:1:1"),
        ("ATTRS{a}!=\"*\", TAG+=\"t\"", "E2:1:1"),
        (
            "ATTR{a}==\"b\", ATTRS{a}==\"*\", ATTR{a}==\"b|\", TAG+=\"t\"",
            "",
        ),
        // Names of attributes.
        ("ATTR{[dmi/id]x}==\"b\", TAG+=\"t\"", "E3:1:1"),
        ("ATTR{../x}==\"b\", TAG+=\"t\"", "E3:1:1"),
        (
            "ATTR{x/*/y}==\"b\", SYMLINK+=\"$attr{$k}\"",
            "E3:1:1 E3:1:29",
        ),
        (
            "ATTR{power/control}==\"b\", ATTR{a..b}==\"c\", TAG+=\"t\"",
            "",
        ),
        // Patterns.
        ("KERNEL==\"a\\*\", TAG+=\"t\"", "E4:1:11"),
        ("KERNEL==\"a\\b\", TAG+=\"t\"", ""),
        ("KERNEL==\"x|[^a]\", TAG+=\"t\"", "E4:1:12"),
        ("KERNEL==\"[!^a]\", TAG+=\"t\"", ""),
        ("KERNEL==\"[[:digit:]]\", TAG+=\"t\"", "E4:1:10"),
        // Given properties.
        (
            "ENV{DEVLINKS}==\"a\", SYMLINK+=\"$env{TAGS}\"",
            "E5:1:1 E5:1:31",
        ),
        ("ENV{ID_MODEL}==\"a\", TAG+=\"t\"", ""),
        // Substitution in ENV and TAG.
        ("ENV{A}=\"$kernel\", TAG+=\"%k\"", "E6:1:9 E6:1:25"),
        ("ENV{A}==\"$kernel\", TAG+=\"k\"", ""),
        // Properties that are refused.
        ("ENV{DEVTYPE}=\"a\"", "E7:1:1"),
        ("ENV{DEVTYPE}==\"a\", ENV{A}=\"b\"", ""),
        // Escaping.
        (
            "OPTIONS=\"string_escape=replace\", ENV{A}=\"/b\", SYMLINK+=\"a b\"",
            "E8:1:42 E8:1:58",
        ),
        (
            "OPTIONS=\"string_escape=none\", ENV{A}=\"/b\", SYMLINK+=\"a b\"",
            "",
        ),
        // Tags.
        ("TAG+=\"a b\"", "E9:1:8"),
        ("TAG:=\"a\"", "E9:1:1"),
        ("TAG=\"\"", "E9:1:1"),
        ("TAG+=\"a-b_C9\", TAG+=\"\"", ""),
        // Links.
        ("SYMLINK-=\"a\"", "E10:1:1"),
        ("SYMLINK+=\"caf\u{e9}\"", "E11:1:14"),
        ("SYMLINK+=\"a\\x20\"", "E11:1:12"),
        ("SYMLINK+=\"a ../b\"", "E11:1:13"),
        ("SYMLINK+=\"/a\"", "E11:1:11"),
        ("SYMLINK+=\"a//b\"", "E11:1:11"),
        ("SYMLINK+=\"$env{A}/./c\"", "E11:1:11"),
        ("SYMLINK+=\"%p\"", "E11:1:11"),
        ("SYMLINK+=\"a%p a/%k ..%k $env{A}/\"", "E11:1:25"),
        ("SYMLINK+=\"a%p a/%k ..%k\"", ""),
        // The time of substitution.
        ("RUN+=\"$env{A}\"\nENV{A}=\"b\"", "E12:1:7"),
        ("RUN+=\"$env{A}\", ENV{A}=\"b\"\nENV{B}=\"b\"", ""),
        // Programs.
        ("RUN+=\"\"", "E13:1:1"),
        ("RUN{builtin}+=\"nothing here\"", "E13:1:15"),
        ("RUN{builtin}+=\"usb_id\", RUN+=\"nothing here\"", ""),
        // The matched parent.
        ("SYMLINK+=\"a%b\"", "E14:1:12"),
        ("KERNELS==\"a\", SYMLINK+=\"a%b$driver\"", ""),
        ("SYMLINK+=\"a$attr{b}\"", ""),
        (
            "KERNELS==\"a\", TAG+=\"t\"\nSYMLINK+=\"a$attr{b}\"",
            "E14:2:12",
        ),
        // Modes, owners and groups.
        ("MODE=\"00660\"", "E15:1:6"),
        ("MODE=\"rw\"", "E15:1:6"),
        ("MODE=\"0660\", OWNER=\"a b\"", "E15:1:20"),
        ("GROUP=\"a\"\nGROUP=\"b\"", "E15:1:1"),
        ("GROUP=\"a\"\nMODE=\"$env{A}\", OWNER=\"$env{A}\"", ""),
        // Priorities.
        ("OPTIONS=\"link_priority=010\"", "E16:1:9"),
        (
            "OPTIONS=\"link_priority=-0\", OPTIONS=\"link_priority=-100\"",
            "",
        ),
        // Removed devices.
        ("ACTION==\"remove\", SYMLINK+=\"a\"", "E17:1:1"),
        ("ACTION==\"remove\", SYMLINK+=\"a\", TAG+=\"t\"", ""),
        ("ACTION!=\"remove\", SYMLINK+=\"a\"", ""),
        // Kernel names.
        ("KERNEL==\"cciss!c0\", TAG+=\"t\"", "E19:1:15"),
        ("KERNELS==\"cciss/c0\", TAG+=\"t\"", "E19:1:16"),
        ("KERNEL==\"[!a]\", TAG+=\"t\"", ""),
        // Subsystems of one meaning.
        ("SUBSYSTEM==\"bus\", TAG+=\"t\"", "E22:1:12"),
        ("SUBSYSTEM==\"usb\", TAG+=\"t\"", ""),
        // Rules without effect.
        ("KERNEL==\"a\", SUBSYSTEM==\"b\"", "E23:1:1"),
        ("KERNEL==\"a\", LABEL=\"b\"", ""),
        ("KERNEL==\"a\", PROGRAM=\"b\"", ""),
        // Commands are no patterns, and have their templates.
        ("PROGRAM==\"a\\*[^b]\", TAG+=\"t\"", ""),
        ("PROGRAM=\"a %b\", TAG+=\"t\"", "E14:1:12"),
        // The output of programs.
        (
            "PROGRAM==\"a\", RUN+=\"b %c\"\nPROGRAM==\"c\", TAG+=\"t\"",
            "E12:1:23",
        ),
        ("PROGRAM==\"a\", RUN+=\"b $result\"", ""),
        (
            "PROGRAM==\"a\", TAG+=\"t\"\nPROGRAM==\"b\", TAG+=\"t\"\nRESULT==\"c\", TAG+=\"t\"",
            "E24:3:1",
        ),
        ("PROGRAM==\"a\", TAG+=\"t\"\nRESULT==\"c\", RUN+=\"%c\"", ""),
        (
            "PROGRAM==\"a\", PROGRAM==\"b\", RESULT==\"c\", RUN+=\"%c\"",
            "",
        ),
        (
            "PROGRAM==\"a\", TAG+=\"t\"\nPROGRAM!=\"b\", RUN+=\"x$result\"",
            "E24:2:22",
        ),
        ("PROGRAM==\"a\", RESULT==\"b;c\", TAG+=\"t\"", "E24:1:25"),
        ("PROGRAM==\"a\", RESULT==\"[a-c]*|d,e\", TAG+=\"t\"", ""),
        ("PROGRAM==\"a\", PROGRAM==\"b %c\", TAG+=\"t\"", "E24:1:27"),
        ("PROGRAM==\"a\", SYMLINK+=\"b/%c\"", "E24:1:27"),
    ] {
        let found = warnings(&folder, text, &[]);
        assert_eq!(found, expected, "{text}");
        if let Some((number, _)) = expected.split_once(':') {
            let left = warnings(&folder, text, &[&format!("--allow={number}")]);
            assert_eq!(left, without(expected, number), "{text}");
        }
    }
}

/// The warnings of a list that do not have this number.
fn without(list: &str, number: &str) -> String {
    let left = list
        .split(' ')
        .filter(|one| !one.starts_with(&format!("{number}:")));
    left.collect::<Vec<_>>().join(" ")
}

#[test]
fn both_behaviours_are_said() {
    let folder = Folder::new("warnings_text");
    folder.file("a.rules", "ATTR{a}!=\"b\", SYMLINK-=\"c\"\n");
    let expected = r#"a.rules:1: warning E2: here this holds without the attribute; in udev neither == nor != holds then
  --> a.rules:1:1
  |
1 | ATTR{a}!="b", SYMLINK-="c"
  | ^^^^^^^^^^^^

a.rules:1: warning E10: here the link is removed; udev 252 refuses the operator (257 removes it)
  --> a.rules:1:15
  |
1 | ATTR{a}!="b", SYMLINK-="c"
  |               ^^^^^^^^^^^^

1 file: 0 faults, 2 warnings
"#;
    folder.run(&["check", "a.rules"]).is(0, expected, "");
    let quiet = "1 file: 0 faults, 0 warnings\n";
    folder
        .run(&["check", "--allow=E2,E10", "a.rules"])
        .is(0, quiet, "");
    folder
        .run(&["check", "--allow=E2", "--allow=E10", "a.rules"])
        .is(0, quiet, "");
}

#[test]
fn faulty_lines_have_no_warnings() {
    let folder = Folder::new("warnings_faulty");
    let said = folder.run_with(
        &["check", "--format=short", "-"],
        "SYMLINK-=\"a\" x\nTAG=\"\"\n",
    );
    assert!(
        said.out.contains("1 file: 1 fault, 1 warning\n"),
        "{}",
        said.out
    );
    assert!(said.out.contains("-:2: warning E9:"), "{}", said.out);
}

#[test]
fn the_table_has_every_number() {
    let table = include_str!("../../../docs/DAEMON.md");
    let row = |line: &str| line.strip_prefix("| E")?.split(' ').next()?.parse().ok();
    let listed: Vec<u8> = table.lines().filter_map(row).collect();
    assert_eq!(listed, spillfinch_cli::check::warnings::NUMBERS);
}
