//! What `spillfinch check` says to do about each fault, and where it says nothing.

mod common;

use common::Folder;

/// The faults of a text, without what comes before the hint.
fn hints(folder: &Folder, text: &[u8]) -> String {
    let arguments = [
        "check",
        "--format=short",
        "--allow=E2,E4,E9,E11,E15,E23",
        "-",
    ];
    let said = folder.run_with(&arguments, text);
    let mut lines: Vec<&str> = said.out.lines().collect();
    lines.pop();
    let hint = |line: &str| {
        let (_, fault) = line.split_once(": fault ").expect("a fault");
        let (number, _) = fault.split_once(':').expect("a number");
        let hint = fault
            .find(" (")
            .map_or("", |at| fault[at + 2..].trim_end_matches(')'));
        format!("{number} {hint}")
    };
    lines
        .iter()
        .map(|line| hint(line))
        .collect::<Vec<_>>()
        .join("; ")
}

#[test]
fn hints_of_every_fault() {
    let folder = Folder::new("hints");
    let pairs = "TAG+=\"a\",".repeat(32) + "TAG+=\"a\"";
    let argument = format!("ATTR{{{}}}==\"a\"", "n".repeat(65));
    let value = format!("TAG==\"{}\"", "v".repeat(257));
    let tag = format!("TAG+=\"{}\"", "t".repeat(65));
    let name = format!("SYMLINK+=\"$env{{{}}}\"", "n".repeat(65));
    for (text, expected) in [
        ("SUBSYTEM==\"a\"", "11 did you mean SUBSYSTEM?"),
        ("KERNELX==\"a\"", "11 did you mean KERNEL or KERNELS?"),
        ("NAME=\"a\"", "11 udev's NAME is not read here"),
        ("IMPORT{program}=\"a\"", "11 udev's IMPORT is not read here"),
        ("symlink+=\"a\"", "11 keys are written in capitals: SYMLINK"),
        ("Kernel==\"a\"", "11 keys are written in capitals: KERNEL"),
        ("XY==\"a\"", "11 "),
        ("TAG+=\"a\",", "11 no pair stands behind this comma"),
        (
            "TAG+=\"a\",,TAG+=\"b\"",
            "11 no pair stands between two commas",
        ),
        (",TAG+=\"a\"", "11 a rule does not begin with a comma"),
        (
            "TAG+=\"a\", # c",
            "11 a comment stands on a line of its own",
        ),
        (
            "\r",
            "11 the line ends in a carriage return; lines end in a newline alone",
        ),
        (
            "\u{feff}TAG+=\"a\"",
            "11 the file begins with a byte order mark",
        ),
        ("\"a\"", "11 "),
        ("ATTR==\"a\"", "12 ATTR takes a name in braces: ATTR{name}"),
        (
            "ATTR {a}==\"a\"",
            "12 the brace stands directly behind ATTR",
        ),
        ("KERNEL{a}==\"a\"", "12 KERNEL takes no argument"),
        ("ENV{}==\"a\"", "12 the braces are empty"),
        ("ENV{a==\"a\"", "12 no `}` closes this brace"),
        ("RUN{x}+=\"a\"", "12 RUN takes program or builtin"),
        (&argument, "12 the name has 65 bytes; 64 are taken"),
        ("KERNEL=\"a\"", "13 KERNEL takes == or !="),
        ("MODE==\"a\"", "13 MODE takes = or :="),
        ("ENV{A}+=\"a\"", "13 ENV takes ==, != or ="),
        ("GOTO+=\"a\"", "13 GOTO takes ="),
        ("KERNEL\"a\"", "13 KERNEL takes == or !="),
        ("KERNELs==\"a\"", "13 KERNEL takes == or !="),
        ("KERNEL", "13 KERNEL takes == or !="),
        (
            "RUN {program}+=\"a\"",
            "13 the brace stands directly behind RUN",
        ),
        ("KERNEL==a", "14 a value stands in quotation marks"),
        ("KERNEL=='a'", "14 a value stands in double quotation marks"),
        ("KERNEL==E\"a\"", "14 the e before a mark is a small letter"),
        (
            "KERNEL==e \"a\"",
            "14 the mark stands directly behind the e",
        ),
        ("KERNEL==e\"a\\x00\"", "14 a value holds no NUL byte"),
        ("KERNEL==e\"\\x4\"", "14 \\x takes two hex digits"),
        (
            "KERNEL==e\"\\101\"",
            "14 write \\x and two hex digits for a byte",
        ),
        ("KERNEL==e\"\\d\"", "14 write \\\\ for a backslash"),
        (
            "KERNEL==e\"a\\\"",
            "14 a mark behind a backslash is a part of the value, so none closes it",
        ),
        ("KERNEL==e\"a", "14 no quotation mark closes this value"),
        ("KERNEL===\"a\"", "14 an equals sign too many"),
        ("KERNEL==", "14 a value in quotation marks is missing"),
        ("KERNEL==\"a", "14 no quotation mark closes this value"),
        (
            "TAG+=\"a\\\"",
            "14 a mark behind a backslash is a part of the value, so none closes it",
        ),
        (&value, "14 the value has 257 bytes; 256 are taken"),
        (
            "KERNEL==\"[a|b]\"",
            "15 `|` separates alternatives, in a set too",
        ),
        ("KERNEL==\"a|[\"", "15 no `]` closes this set"),
        (
            "KERNEL==\"[z-a]\"",
            "15 the range falls: its first byte is the higher one",
        ),
        ("SYMLINK+=\"a$\"", "15 write $$ for the sign itself"),
        ("SYMLINK+=\"a%\"", "15 write %% for the sign itself"),
        ("SYMLINK+=\"100%x\"", "15 write %% for the sign itself"),
        ("SYMLINK+=\"$kernle\"", "15 did you mean $kernel?"),
        (
            "SYMLINK+=\"%c{1}\"",
            "15 %c inserts the whole output; its parts are not read here",
        ),
        (
            "PROGRAM==\"a $result{1+}\"",
            "15 $result inserts the whole output; its parts are not read here",
        ),
        ("PROGRAM==\"$x\"", "15 write $$ for the sign itself"),
        ("PROGRAM-=\"a\"", "13 PROGRAM takes ==, !=, =, += or :="),
        ("PROGRAM{a}==\"a\"", "12 PROGRAM takes no argument"),
        ("RESULT=\"a\"", "13 RESULT takes == or !="),
        ("RESULT==\"[\"", "15 no `]` closes this set"),
        ("PROGRAM==\"[\"", ""),
        (
            "SYMLINK+=\"$devnode\"",
            "15 udev's $devnode is not read here",
        ),
        (
            "SYMLINK+=\"$attr\"",
            "15 $attr takes a name in braces: $attr{name}",
        ),
        ("SYMLINK+=\"%s{\"", "15 no `}` closes this brace"),
        ("SYMLINK+=\"%E{}\"", "15 the braces are empty"),
        (&name, "15 the name has 65 bytes; 64 are taken"),
        (
            "OPTIONS=\"link_priority=99999999999\"",
            "15 a priority has 1 to 10 digits, from -2147483648 to 2147483647",
        ),
        (
            "OPTIONS=\"link_priority=0x1\"",
            "15 a priority has 1 to 10 digits, from -2147483648 to 2147483647",
        ),
        ("OPTIONS=\"Watch\"", "15 did you mean watch?"),
        (
            "OPTIONS=\"static_node=a\"",
            "15 udev's static_node is not read here",
        ),
        (
            "OPTIONS=\"string_escpe=none\"",
            "15 did you mean string_escape=none?",
        ),
        (
            "OPTIONS=\"x\"",
            "15 OPTIONS takes link_priority=N, string_escape=none, string_escape=replace, watch or nowatch",
        ),
        ("LABEL=\"\"", "15 a label has a name"),
        (&tag, "15 the tag has 65 bytes; 64 are taken"),
        (&pairs, "16 a rule has at most 32 pairs"),
        ("LABEL=\"a\",LABEL=\"b\"", "16 a rule has one LABEL"),
        ("TAG+=\"a\" TAG+=\"b\"", "17 a comma is missing here"),
        ("TAG+=\"a\" # c", "17 a comment stands on a line of its own"),
        (
            "TAG+=\"a\"; TAG+=\"b\"",
            "17 pairs are separated by a comma",
        ),
        (
            "TAG+=\"a\" \\ \nTAG+=\"b\"",
            "17 a backslash joins the next line only directly before the newline",
        ),
        ("TAG+=\"a\" \\", "20 no line follows that it could join"),
        (
            "# c\\\nTAG+=\"a\"\\\n",
            "20 no line follows that it could join",
        ),
        ("GOTO=\"a\"\\\n\n\\\n\\\nLABEL=\"b\"", "19 "),
        (
            "TAG+=\"a\"\r",
            "17 the line ends in a carriage return; lines end in a newline alone",
        ),
        ("TAG+=\"a\"b\"", "17 "),
        ("TAG+=\"a\"\"", "17 write \\\" for a mark inside a value"),
        ("GOTO=\"a\"", "19 "),
        (
            "LABEL=\"a\"\nGOTO=\"a\"",
            "19 LABEL=\"a\" stands before, in line 1; jumps go forward",
        ),
        (
            "GOTO=\"a\", LABEL=\"a\"",
            "19 a rule does not jump to its own LABEL",
        ),
        (
            "GOTO=\"theend\"\nLABEL=\"the_end\"",
            "19 did you mean the_end?",
        ),
        (
            "GOTO=\"a\"\nLABEL=\"a\", GOTO=\"b\"",
            "19 LABEL=\"a\" stands in line 2, which is at fault itself; 19 ",
        ),
        (
            "GOTO=\"a\"\nLABEL=\"a\" x",
            "19 LABEL=\"a\" stands in line 2, which is at fault itself; 17 ",
        ),
    ] {
        assert_eq!(hints(&folder, text.as_bytes()), expected, "{text:?}");
    }
}
