//! Sets of files at and just past their limits, and the order of what refuses them.

use super::edge_cases::{long_text, many_rules, of_text};
use super::edges::{edge, Edge};
use super::rng::Rng;
use super::{Case, Extra};
use crate::file_set::{FileSet, Rank, RulesFile};
use crate::sizes;

pub const FILE_EDGES: &[Edge] = &[
    edge("no files", 0, |rng| of_files(&[], rng)),
    edge("32 files", 0, |rng| of_files(&numbered(32), rng)),
    edge("33 files", 7, |rng| of_files(&numbered(33), rng)),
    edge("file name of 64", 0, |rng| of_name(name_of(64), rng)),
    edge("file name of 65", 7, |rng| of_name(name_of(65), rng)),
    edge("file without a name", 7, |rng| of_name(Vec::new(), rng)),
    edge("fifth rank", 7, |rng| of_set_bytes(|set| set[1] = 4, rng)),
    edge("byte after the files", 7, |rng| {
        of_set_bytes(|set| set.push(0), rng)
    }),
    edge("files without their last byte", 7, |rng| {
        of_set_bytes(
            |set| {
                set.pop();
            },
            rng,
        )
    }),
    edge("no set of files", 7, |rng| of_set_bytes(Vec::clear, rng)),
    edge("equal names and ranks", 21, |rng| {
        of_files(
            &[
                file(Rank::Run, "a.rules", b""),
                file(Rank::Run, "a.rules", b""),
            ],
            rng,
        )
    }),
    edge("equal ignored names and ranks, before a fault", 21, |rng| {
        let files = [
            file(Rank::Etc, "a.rules", b"NAME"),
            file(Rank::Lib, "README", b""),
            file(Rank::Lib, "README", b"x"),
        ];
        of_files(&files, rng)
    }),
    edge("equal names of four ranks", 0, |rng| {
        let file = |rank| file(rank, "a.rules", b"TAG+=\"a\"");
        of_files(&Rank::ALL.map(file), rng)
    }),
    edge("faulty texts that do not count", 0, |rng| {
        let files = [
            file(Rank::Lib, "a.rules", &[b'x'; 65_535]),
            file(Rank::Etc, "a.rules", b""),
            file(Rank::Etc, "a.rules~", b"NAME"),
        ];
        of_files(&files, rng)
    }),
    edge("file of 32,768", 0, |rng| {
        of_files(&[file(Rank::Etc, "a.rules", &long_text(32_768))], rng)
    }),
    edge("file of 32,769", 2, |rng| {
        of_files(&[file(Rank::Etc, "a.rules", &long_text(32_769))], rng)
    }),
    edge("file of 65,535", 2, |rng| {
        of_files(&[file(Rank::Etc, "a.rules", &[b'\n'; 65_535])], rng)
    }),
    edge("512 rules in each of three files", 0, |rng| {
        let rules = many_rules(512);
        let names = ["a.rules", "b.rules", "c.rules"];
        of_files(&names.map(|name| file(Rank::Etc, name, &rules)), rng)
    }),
    edge("label in another file", 19, |rng| {
        let files = [
            file(Rank::Etc, "a.rules", b"GOTO=\"a\""),
            file(Rank::Etc, "b.rules", b"LABEL=\"a\""),
        ];
        of_files(&files, rng)
    }),
    edge("open join before another file", 20, |rng| {
        let files = [
            file(Rank::Etc, "a.rules", b"TAG+=\"a\",\\\n"),
            file(Rank::Etc, "b.rules", b"TAG+=\"b\""),
        ];
        of_files(&files, rng)
    }),
    edge("fault of the last file before a refused run", 11, |rng| {
        let files = [
            file(Rank::Etc, "a.rules", b"MODE=\"8\""),
            file(Rank::Etc, "b.rules", b"NAME"),
        ];
        of_files(&files, rng)
    }),
    edge("refused run of the second file", 34, |rng| {
        let files = [
            file(Rank::Etc, "b.rules", b"TAG==\"a\", MODE=\"8\""),
            file(Rank::Etc, "a.rules", b"TAG+=\"a\""),
        ];
        of_files(&files, rng)
    }),
    edge("program of the first file", 34, |rng| {
        let files = [
            file(Rank::Etc, "a.rules", b"PROGRAM=\"x\""),
            file(Rank::Etc, "b.rules", b"RESULT==\"said\", MODE=\"8\""),
        ];
        let mut case = of_files(&files, rng);
        case.sheet = b"\x01\x80\x20\x20xsaid".to_vec();
        case
    }),
    edge("files with a byte less", 1, |rng| {
        of_run_files(Vec::new(), sizes::OUTCOME_TARGET - 1, rng)
    }),
];

fn file(rank: Rank, name: &str, text: &[u8]) -> RulesFile {
    RulesFile {
        rank,
        name: name.as_bytes().to_vec(),
        text: text.to_vec(),
    }
}

fn numbered(count: usize) -> Vec<RulesFile> {
    (0..count)
        .map(|index| file(Rank::Lib, &format!("{index}.rules"), b"TAG+=\"a\"\n"))
        .collect()
}

fn name_of(length: usize) -> Vec<u8> {
    let mut name = vec![b'n'; length - 6];
    name.extend_from_slice(b".rules");
    name
}

fn of_run_files(set: Vec<u8>, room: usize, rng: &mut Rng) -> Case {
    let mut case = of_text(b"TAG+=\"a\"".to_vec(), rng);
    case.extra = Extra::RunFiles {
        permuted: set.clone(),
        set,
        room,
    };
    case
}

fn of_files(files: &[RulesFile], rng: &mut Rng) -> Case {
    let mut set = FileSet {
        files: files.to_vec(),
    };
    let mut case = of_run_files(set.encode(), sizes::OUTCOME_TARGET, rng);
    rng.shuffle(&mut set.files);
    if let Extra::RunFiles { permuted, .. } = &mut case.extra {
        *permuted = set.encode();
    }
    case
}

fn of_name(name: Vec<u8>, rng: &mut Rng) -> Case {
    let file = RulesFile {
        rank: Rank::Etc,
        name,
        text: b"TAG+=\"a\"".to_vec(),
    };
    of_files(&[file], rng)
}

fn of_set_bytes(change: fn(&mut Vec<u8>), rng: &mut Rng) -> Case {
    let set = FileSet { files: numbered(2) };
    let mut bytes = set.encode();
    change(&mut bytes);
    of_run_files(bytes, sizes::OUTCOME_TARGET, rng)
}
