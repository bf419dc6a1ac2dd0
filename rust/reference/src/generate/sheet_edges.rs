//! Answer sheets at and just past their limits, and rules at the edge of what these answer.

use super::edge_cases::{of_line, of_text};
use super::edges::{edge, Edge};
use super::rng::Rng;
use super::Case;
use crate::sheet::{Sheet, SheetEntry};
use crate::sizes;

pub const SHEET_EDGES: &[Edge] = &[
    edge("64 answers", 0, |rng| of_sheet(numbered(64), rng)),
    edge("65 answers", 6, |rng| of_sheet(numbered(65), rng)),
    edge("sheet of 32,768", 0, |rng| of_sheet(padded(32_768), rng)),
    edge("sheet of 32,769", 6, |rng| of_sheet(padded(32_769), rng)),
    edge("command and output of 512", 0, |rng| {
        of_entry(vec![b'c'; 512], vec![b'o'; 512], rng)
    }),
    edge("command of 513", 6, |rng| {
        of_entry(vec![b'c'; 513], Vec::new(), rng)
    }),
    edge("output of 513 on a sheet", 6, |rng| {
        of_entry(b"c".to_vec(), vec![b'o'; 513], rng)
    }),
    edge("empty command on a sheet", 6, |rng| {
        of_entry(Vec::new(), b"o".to_vec(), rng)
    }),
    edge("NUL in a command", 6, |rng| {
        of_entry(b"a\0".to_vec(), Vec::new(), rng)
    }),
    edge("NUL in an output on a sheet", 6, |rng| {
        of_entry(b"a".to_vec(), b"\0".to_vec(), rng)
    }),
    edge("NUL in the output of a failure", 6, |rng| {
        of_answers(&[("a", false, "\0")], b"TAG+=\"a\"", rng)
    }),
    edge("equal commands", 6, |rng| {
        let answers = [("a", true, "x"), ("b", true, "x"), ("a", false, "")];
        of_answers(&answers, b"TAG+=\"a\"", rng)
    }),
    edge("unused bit of a sheet", 6, |rng| {
        of_sheet_bytes(|sheet| sheet[3] |= 1, rng)
    }),
    edge("byte after the sheet", 6, |rng| {
        of_sheet_bytes(|sheet| sheet.push(0), rng)
    }),
    edge("sheet without its last byte", 6, |rng| {
        of_sheet_bytes(
            |sheet| {
                sheet.pop();
            },
            rng,
        )
    }),
    edge("no sheet", 6, |rng| of_sheet_bytes(Vec::clear, rng)),
    edge("faulty sheet and outcome", 4, |rng| {
        let mut case = of_sheet_bytes(Vec::clear, rng);
        case.outcome.clear();
        case
    }),
    edge("faulty sheet and text", 19, |rng| {
        let mut case = of_sheet_bytes(Vec::clear, rng);
        case.text = b"GOTO=\"a\"".to_vec();
        case
    }),
    edge("faulty sheet and a refusal while running", 6, |rng| {
        let mut case = of_sheet_bytes(Vec::clear, rng);
        case.text = b"MODE=\"8\"".to_vec();
        case
    }),
    edge("command of 512 asked", 0, |rng| of_long_command(512, rng)),
    edge("command of 513 asked", 30, |rng| of_long_command(513, rng)),
    edge("command that is not on the sheet", 35, |rng| {
        ask(b"PROGRAM==\"none\"", rng)
    }),
    edge("command that is not on the sheet, unequal", 35, |rng| {
        ask(b"PROGRAM!=\"none\"", rng)
    }),
    edge("empty command asked", 35, |rng| ask(b"PROGRAM=\"\"", rng)),
    edge("command asked before a refused assignment", 35, |rng| {
        ask(b"SYMLINK=\"/\", PROGRAM=\"none\", MODE=\"8\"", rng)
    }),
    edge("command of a rule that fails before", 0, |rng| {
        ask(b"PROGRAM=\"none\", KERNEL==\"nothing\"", rng)
    }),
    edge("command behind one that does not hold", 0, |rng| {
        ask(b"PROGRAM==\"fails\", PROGRAM=\"none\"", rng)
    }),
    edge("command behind a success that does not hold", 0, |rng| {
        ask(b"PROGRAM!=\"says\", PROGRAM=\"none\"", rng)
    }),
    edge("command behind a failure that holds", 35, |rng| {
        ask(b"PROGRAM!=\"fails\", PROGRAM=\"none\"", rng)
    }),
    edge("command behind a result that does not hold", 35, |rng| {
        ask(b"RESULT==\"nothing\", PROGRAM=\"none\"", rng)
    }),
    edge("result of this rule's program", 34, |rng| {
        ask(b"RESULT==\"0666\", PROGRAM=\"says\", MODE=\"8\"", rng)
    }),
    edge("result of a program in a rule that fails", 34, |rng| {
        let lines = b"PROGRAM=\"says\", PROGRAM=\"fails\"\nRESULT==\"0666\", MODE=\"8\"";
        ask(lines, rng)
    }),
    edge("world-writable mode that a program says", 36, |rng| {
        ask(b"PROGRAM=\"says\", MODE=\"%c\"", rng)
    }),
    edge("owner with a newline that a program says", 33, |rng| {
        ask(b"PROGRAM=\"lines\", OWNER=\"$result\"", rng)
    }),
    edge("run with 513 bytes that a program says", 30, |rng| {
        ask(b"PROGRAM=\"long\", RUN+=\"$result!\"", rng)
    }),
];

/// The output of a success.
fn entry(command: Vec<u8>, output: Vec<u8>) -> SheetEntry {
    SheetEntry {
        command,
        success: true,
        output,
    }
}

fn numbered(count: usize) -> Vec<SheetEntry> {
    (0..count)
        .map(|index| entry(index.to_string().into_bytes(), b"o\n".to_vec()))
        .collect()
}

/// The entries of a sheet of that length.
fn padded(length: usize) -> Vec<SheetEntry> {
    let mut entries = numbered(60);
    let mut missing = length - packed(&entries).len();
    for entry in &mut entries {
        let more = missing.min(sizes::OUTPUT - entry.output.len());
        entry.output.splice(0..0, vec![b'o'; more]);
        missing -= more;
    }
    for entry in &mut entries {
        let more = missing.min(sizes::COMMAND - entry.command.len());
        entry.command.extend(vec![b'c'; more]);
        missing -= more;
    }
    entries
}

fn packed(entries: &[SheetEntry]) -> Vec<u8> {
    let sheet = Sheet {
        entries: entries.to_vec(),
    };
    sheet.encode()
}

fn of_sheet(entries: Vec<SheetEntry>, rng: &mut Rng) -> Case {
    let mut case = of_line(b"TAG+=\"a\"", rng);
    case.sheet = packed(&entries);
    case
}

fn of_entry(command: Vec<u8>, output: Vec<u8>, rng: &mut Rng) -> Case {
    let mut entries = numbered(3);
    entries[1] = entry(command, output);
    of_sheet(entries, rng)
}

fn of_sheet_bytes(change: fn(&mut Vec<u8>), rng: &mut Rng) -> Case {
    let mut case = of_sheet(numbered(2), rng);
    change(&mut case.sheet);
    case
}

fn of_answers(answers: &[(&str, bool, &str)], lines: &[u8], rng: &mut Rng) -> Case {
    let entries: Vec<SheetEntry> = answers
        .iter()
        .map(|(command, success, output)| SheetEntry {
            command: command.as_bytes().to_vec(),
            success: *success,
            output: output.as_bytes().to_vec(),
        })
        .collect();
    let mut case = of_line(lines, rng);
    case.sheet = packed(&entries);
    case
}

/// The lines with a sheet of a few programs.
fn ask(lines: &[u8], rng: &mut Rng) -> Case {
    let long = "o".repeat(512);
    let answers = [
        ("says", true, "0666\n"),
        ("fails", false, "never\n"),
        ("lines", true, "a\nb\n"),
        ("long", true, &long),
    ];
    of_answers(&answers, lines, rng)
}

/// A command of so many bytes, of which 510 are inserted.
fn of_long_command(length: usize, rng: &mut Rng) -> Case {
    let written = "c".repeat(length - 510);
    let lines = format!("PROGRAM=\"says\"\nPROGRAM=\"%c{written}\", RESULT==\"found\"");
    let command = format!("{}{written}", "o".repeat(510));
    let mut case = of_text(lines.into_bytes(), rng);
    let mut entries = vec![entry(b"says".to_vec(), vec![b'o'; 510])];
    if length <= sizes::COMMAND {
        entries.push(entry(command.into_bytes(), b"found".to_vec()));
    }
    case.sheet = packed(&entries);
    case
}
