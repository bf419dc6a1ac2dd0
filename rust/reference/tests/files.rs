//! A set of files: document 02, Item 11.

mod common;

use common::*;
use reference::claims::broken_claim;
use reference::compare::{replies, Engine, Reference, Request};
use reference::file_set::{FileSet, Rank, RulesFile};
use reference::generate::{case, Case, Extra};
use reference::outcome::Outcome;
use reference::request::{AnswerArray, Written};
use reference::sheet::{Sheet, SheetEntry, EMPTY};
use reference::sizes::OUTCOME_TARGET;
use reference::Answer;

use Rank::{Etc, Lib, Run, UsrLocalLib};

fn file(rank: Rank, name: &str, text: &str) -> RulesFile {
    RulesFile {
        rank,
        name: name.as_bytes().to_vec(),
        text: text.as_bytes().to_vec(),
    }
}

fn set_of(files: &[RulesFile]) -> Vec<u8> {
    let set = FileSet {
        files: files.to_vec(),
    };
    set.encode()
}

fn run_bytes(
    set: &[u8],
    device: &[u8],
    outcome: &[u8],
    sheet: &[u8],
    room: usize,
) -> (Answer, Vec<u8>) {
    let mut target = vec![0xAA; room];
    let answer = reference::run_files(set, device, outcome, sheet, &mut target);
    let (record, rest) = target.split_at(answer.used as usize);
    assert!(rest.iter().all(|&byte| byte == 0));
    if answer.number != 0 {
        assert_eq!((answer.visited, answer.tried, answer.used), (0, 0, 0));
    }
    assert_eq!(answer.count, 0);
    (answer, record.to_vec())
}

/// A run of files for ttyUSB0 from its fresh record.
fn run_files(files: &[RulesFile]) -> (Answer, Vec<u8>) {
    let device = tty_usb0();
    let fresh = Outcome::fresh(&device).encode();
    run_bytes(
        &set_of(files),
        &device.encode(),
        &fresh,
        EMPTY,
        OUTCOME_TARGET,
    )
}

/// The tags after an accepted run, which tell what ran and in what order.
#[track_caller]
fn tags(files: &[RulesFile]) -> Vec<String> {
    let (answer, record) = run_files(files);
    assert_eq!((answer.number, answer.line, answer.position), (0, 0, 0));
    let outcome = Outcome::decode(&record, tty_usb0().chain.len()).expect("a sound record");
    strings(&outcome.tags)
}

/// The number, line and position of a refused run.
#[track_caller]
fn refused(files: &[RulesFile]) -> (u32, u32, u32) {
    let (answer, _) = run_files(files);
    assert_ne!(answer.number, 0);
    (answer.number, answer.line, answer.position)
}

#[test]
fn the_layout() {
    let set = set_of(&[file(UsrLocalLib, "ab", "xyz"), file(Etc, "c", "")]);
    let bytes = [
        &[2, 2, 2][..],
        b"ab",
        &[0, 3],
        b"xyz",
        &[0, 1],
        b"c",
        &[0, 0],
    ];
    assert_eq!(set, bytes.concat());
    assert_eq!(set_of(&[]), [0]);
}

#[test]
fn names_run_in_byte_order() {
    let add = |name: &str, tag: &str| file(Lib, name, &format!("TAG+=\"{tag}\""));
    let files = [
        add("z.rules", "z"),
        add("9.rules", "9"),
        add("10.rules", "10"),
        add("Z.rules", "Z"),
        add("z.rules.rules", "zz"),
        add(".rules", "dot"),
        add("a\u{e4}.rules", "high"),
        add("ab.rules", "ab"),
    ];
    let expected = ["dot", "10", "9", "Z", "ab", "high", "z", "zz"];
    assert_eq!(tags(&files), expected);
    let mut reversed = files;
    reversed.reverse();
    assert_eq!(tags(&reversed), expected);
}

#[test]
fn the_highest_rank_of_a_name_counts() {
    let of = |rank, tag: &str| file(rank, "a.rules", &format!("TAG+=\"{tag}\""));
    let [etc, run, local, lib] = [
        of(Etc, "etc"),
        of(Run, "run"),
        of(UsrLocalLib, "local"),
        of(Lib, "lib"),
    ];
    let all = [lib.clone(), local.clone(), run.clone(), etc];
    assert_eq!(tags(&all), ["etc"]);
    assert_eq!(tags(&all[..3]), ["run"]);
    assert_eq!(tags(&[lib.clone(), local]), ["local"]);
    assert_eq!(
        tags(&[run, file(Etc, "b.rules", "TAG+=\"b\""), lib]),
        ["run", "b"]
    );
}

#[test]
fn names_without_the_ending_are_ignored() {
    for name in [
        "a",
        "a.rule",
        "a.RULES",
        "a.rules ",
        "rules",
        "a.rules~",
        "a.rules\n",
    ] {
        assert_eq!(tags(&[file(Etc, name, "TAG+=\"a\"")]), [""; 0], "{name:?}");
        // Whatever their texts hold.
        assert_eq!(tags(&[file(Etc, name, "NAME")]), [""; 0], "{name:?}");
    }
    assert_eq!(tags(&[file(Etc, ".rules", "TAG+=\"a\"")]), ["a"]);
    assert_eq!(tags(&[file(Etc, "\0/.rules", "TAG+=\"a\"")]), ["a"]);
}

#[test]
fn an_empty_winning_text_disables_its_name() {
    let lower = file(Lib, "a.rules", "TAG+=\"a\"");
    assert_eq!(tags(&[lower.clone()]), ["a"]);
    assert_eq!(tags(&[lower.clone(), file(Etc, "a.rules", "")]), [""; 0]);
    assert_eq!(
        tags(&[lower.clone(), file(Run, "a.rules", "# c\n")]),
        [""; 0]
    );
    // It is still there for 21.
    let twice = [file(Etc, "a.rules", ""), file(Etc, "a.rules", ""), lower];
    assert_eq!(refused(&twice), (21, 0, 0));
}

#[test]
fn equal_name_and_rank_is_21() {
    let sound = file(Run, "a.rules", "TAG+=\"a\"");
    assert_eq!(refused(&[sound.clone(), sound.clone()]), (21, 0, 0));
    // Whatever the extension, whether it counts or not, and before any text is read.
    let ignored = file(Lib, "README", "x");
    assert_eq!(
        refused(&[ignored.clone(), sound.clone(), ignored]),
        (21, 0, 0)
    );
    let loser = file(Lib, "a.rules", "");
    assert_eq!(refused(&[sound, loser.clone(), loser]), (21, 0, 0));
    let faulty = file(Etc, "a.rules", "NAME");
    assert_eq!(refused(&[faulty.clone(), faulty]), (21, 0, 0));
    let apart = [file(Lib, "a.rules", ""), file(Run, "a.rules", "")];
    assert_eq!(run_files(&apart).0.number, 0);
}

#[test]
fn losers_and_ignored_texts_are_not_read() {
    let long = "x".repeat(65_535);
    assert_eq!(
        tags(&[
            file(Lib, "a.rules", &long),
            file(Lib, "b.rules", "NAME"),
            file(Etc, "a.rules", "TAG+=\"a\""),
            file(Etc, "b.rules", ""),
            file(Etc, "c", &long),
        ]),
        ["a"]
    );
}

#[test]
fn a_text_refusal_names_its_file() {
    let sound = file(Etc, "a.rules", "TAG+=\"a\"");
    let faulty = |name: &str| file(Lib, name, "\nNAME");
    assert_eq!(refused(&[sound.clone(), faulty("b.rules")]), (11, 2, 2));
    assert_eq!(refused(&[faulty("b.rules"), sound.clone()]), (11, 2, 1));
    // The first in the order of names.
    assert_eq!(
        refused(&[faulty("z.rules"), sound.clone(), faulty("b.rules")]),
        (11, 2, 3)
    );
    let long = file(Lib, "b.rules", &"\n".repeat(32_769));
    assert_eq!(refused(&[sound, long]), (2, 0, 2));
}

#[test]
fn each_text_is_read_whole_before_the_next() {
    let files = [
        file(Etc, "b.rules", "\0"),
        file(Etc, "a.rules", "TAG+=\"a\"\nGOTO=\"nowhere\""),
    ];
    assert_eq!(refused(&files), (19, 2, 2));
}

#[test]
fn a_running_refusal_names_its_file() {
    let files = [
        file(Lib, "b.rules", "# c\nTAG==\"a\", MODE=\"8\""),
        file(Lib, "a.rules", "TAG+=\"a\""),
    ];
    assert_eq!(refused(&files), (34, 2, 1));
    let [b, a] = files;
    assert_eq!(refused(&[a, b]), (34, 2, 2));
    assert_eq!(
        refused(&[file(Etc, "a.rules", "PROGRAM=\"x\"")]),
        (35, 1, 1)
    );
}

#[test]
fn the_order_of_refusals() {
    let device = tty_usb0().encode();
    let outcome = Outcome::default().encode();
    let faulty = set_of(&[
        file(Etc, "a.rules", "MODE=\"8\""),
        file(Etc, "b.rules", "NAME"),
    ]);
    let running = set_of(&[file(Etc, "a.rules", "MODE=\"8\"")]);
    let numbers = |set: &[u8], device: &[u8], outcome: &[u8], sheet: &[u8], room| {
        let (answer, _) = run_bytes(set, device, outcome, sheet, room);
        (answer.number, answer.line, answer.position)
    };
    let full = OUTCOME_TARGET;
    assert_eq!(numbers(b"", b"", b"", b"", full - 1), (1, 0, 0));
    assert_eq!(numbers(b"", b"", b"", b"", full), (7, 0, 0));
    let equal = set_of(&[file(Etc, "a.rules", "x"), file(Etc, "a.rules", "x")]);
    assert_eq!(numbers(&equal, b"", b"", b"", full), (21, 0, 0));
    // A fault in the last file comes before 3, 4, 6 and before the first file runs.
    assert_eq!(numbers(&faulty, b"", b"", b"", full), (11, 1, 2));
    assert_eq!(numbers(&faulty, &device, &outcome, EMPTY, full), (11, 1, 2));
    assert_eq!(numbers(&running, b"", b"", b"", full), (3, 0, 0));
    assert_eq!(numbers(&running, &device, b"", b"", full), (4, 0, 0));
    assert_eq!(numbers(&running, &device, &outcome, b"", full), (6, 0, 0));
    assert_eq!(
        numbers(&running, &device, &outcome, EMPTY, full),
        (34, 1, 1)
    );
    assert_eq!(
        numbers(&running, &device, &outcome, EMPTY, full + 9),
        (34, 1, 1)
    );
    // Without a file that counts they are checked all the same.
    assert_eq!(numbers(&[0], b"", b"", b"", full), (3, 0, 0));
    assert_eq!(numbers(&[0], &device, b"", b"", full), (4, 0, 0));
    assert_eq!(numbers(&[0], &device, &outcome, b"", full), (6, 0, 0));
}

#[test]
fn without_a_file_the_record_stays() {
    let device = tty_usb0();
    let outcome = outcome_of("TAG+=\"a\", ENV{A}=\"b\"", &device).encode();
    let (answer, record) = run_bytes(&[0], &device.encode(), &outcome, EMPTY, OUTCOME_TARGET);
    assert_eq!((answer.number, answer.visited, answer.tried), (0, 0, 0));
    assert_eq!(record, outcome);
}

#[test]
fn a_set_against_its_layout_is_7() {
    let number = |set: &[u8]| {
        let device = tty_usb0();
        let fresh = Outcome::fresh(&device).encode();
        let (answer, _) = run_bytes(set, &device.encode(), &fresh, EMPTY, OUTCOME_TARGET);
        assert!(answer.number != 7 || (answer.line, answer.position) == (0, 0));
        answer.number
    };
    let set = set_of(&[file(Lib, "a.rules", "#"), file(Etc, "b.rules", "")]);
    assert_eq!(number(&set), 0);
    for end in 0..set.len() {
        assert_eq!(number(&set[..end]), 7, "{end}");
    }
    assert_eq!(number(&[&set[..], b"\0"].concat()), 7);
    let mut fifth_rank = set.clone();
    fifth_rank[1] = 4;
    assert_eq!(number(&fifth_rank), 7);
    let name = |length: usize| number(&set_of(&[file(Etc, &"n".repeat(length), "")]));
    assert_eq!((name(0), name(1), name(64), name(65)), (7, 0, 0, 7));
    let files = |count: usize| {
        let files: Vec<RulesFile> = (0..count).map(|n| file(Etc, &n.to_string(), "")).collect();
        number(&set_of(&files))
    };
    assert_eq!((files(0), files(32), files(33)), (0, 0, 7));
    // Texts of any bytes up to 65,535 can be laid out.
    let long = "\0".repeat(65_535);
    assert_eq!(number(&set_of(&[file(Etc, "a", &long)])), 0);
    assert_eq!(number(&set_of(&[file(Etc, "a.rules", &long)])), 2);
}

#[test]
fn labels_and_limits_hold_per_file() {
    let jump = [
        file(Etc, "a.rules", "GOTO=\"l\""),
        file(Etc, "b.rules", "LABEL=\"l\""),
    ];
    assert_eq!(refused(&jump), (19, 1, 1));
    let rules = "TAG+=\"a\"\n".repeat(512);
    let (answer, _) = run_files(&[file(Etc, "a.rules", &rules), file(Etc, "b.rules", &rules)]);
    assert_eq!((answer.number, answer.visited), (0, 1_024));
    let more = format!("{rules}TAG+=\"a\"");
    let files = [file(Etc, "a.rules", &rules), file(Etc, "b.rules", &more)];
    assert_eq!(refused(&files), (18, 513, 2));
    // An open join is the fault of its own file, and takes nothing from the next.
    let open = [
        file(Etc, "a.rules", "TAG+=\"a\",\\\n"),
        file(Etc, "b.rules", "TAG+=\"b\""),
    ];
    assert_eq!(refused(&open), (20, 1, 1));
    let comment = [
        file(Etc, "a.rules", "# c\\\n"),
        file(Etc, "b.rules", "TAG+=\"b\""),
    ];
    assert_eq!(tags(&comment), ["b"]);
}

#[test]
fn what_a_record_holds_passes_on() {
    let device = tty_usb0();
    let sheet = Sheet {
        entries: vec![SheetEntry {
            command: b"x".to_vec(),
            success: true,
            output: b"said\n".to_vec(),
        }],
    };
    let files = [
        file(
            Etc,
            "a.rules",
            "MODE:=\"0600\", ENV{A}=\"a b\", OPTIONS=\"string_escape=none\", PROGRAM=\"x\"",
        ),
        file(
            Lib,
            "b.rules",
            "MODE=\"0660\", SYMLINK=\"$env{A} $result\", ATTRS{serial}==\"RC*\"",
        ),
    ];
    let fresh = Outcome::fresh(&device).encode();
    let (answer, record) = run_bytes(
        &set_of(&files),
        &device.encode(),
        &fresh,
        &sheet.encode(),
        OUTCOME_TARGET,
    );
    assert_eq!((answer.number, answer.visited, answer.tried), (0, 2, 2));
    let outcome = Outcome::decode(&record, device.chain.len()).expect("a sound record");
    assert_eq!(outcome.mode, Some(0o600));
    // The setting of string_escape has ended with its rule.
    assert_eq!(strings(&outcome.links), ["a_b", "said"]);
}

#[test]
fn a_refused_run_gives_nothing() {
    let files = [
        file(Etc, "a.rules", "TAG+=\"a\""),
        file(Etc, "b.rules", "MODE=\"8\""),
    ];
    let (answer, record) = run_files(&files);
    assert_eq!((answer.number, answer.used), (34, 0));
    assert!(record.is_empty());
}

fn file_cases() -> impl Iterator<Item = Case> {
    (0..20_000)
        .map(case)
        .filter(|case| matches!(case.extra, Extra::RunFiles { .. }))
}

#[test]
fn what_is_wanted_of_generated_sets() {
    let (mut ran, mut named) = (0, 0);
    for case in file_cases() {
        let replies = replies(&Reference, &case);
        assert_eq!(broken_claim(&Reference, &case, &replies), None);
        let run = &replies[replies.len() - 2];
        ran += u32::from(run.number() == 0 && run.visited() > 2);
        named += u32::from(run.position() > 0);
    }
    assert!(ran > 100, "{ran}");
    assert!(named > 50, "{named}");
}

/// The reference, lent the files in another way.
struct Changed(fn(&mut FileSet));

impl Engine for Changed {
    fn answer(&self, request: &Request, written: &mut Written) -> AnswerArray {
        let Request::RunFiles { set, .. } = request else {
            return Reference.answer(request, written);
        };
        let mut changed = FileSet::decode(set).unwrap_or_default();
        (self.0)(&mut changed);
        let mut request = *request;
        let set = changed.encode();
        if let Request::RunFiles { set: lent, .. } = &mut request {
            *lent = &set;
        }
        Reference.answer(&request, written)
    }
}

#[test]
fn the_claims_find_an_engine_that_breaks_them() {
    let finds = |change| {
        let engine = Changed(change);
        file_cases().any(|case| broken_claim(&engine, &case, &replies(&engine, &case)).is_some())
    };
    // Names by their place in the set, the first file only, every file as one that counts.
    assert!(finds(|set| {
        for (place, file) in set.files.iter_mut().enumerate() {
            file.name = format!("{place}.rules").into_bytes();
        }
    }));
    assert!(finds(|set| set.files.truncate(1)));
    assert!(finds(|set| set.files.iter_mut().for_each(|file| {
        file.name.extend_from_slice(b".rules");
    })));
    assert!(!finds(|_| {}));
}
