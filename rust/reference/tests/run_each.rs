//! A run for each record of a set.

mod common;

use common::*;
use reference::claims::broken_claim;
use reference::compare::{replies, Engine, Reference, Request};
use reference::device::Device;
use reference::generate::{case, Case, Extra};
use reference::outcome::Outcome;
use reference::record_set::{RecordPair, RecordSet};
use reference::request::{AnswerArray, Written};
use reference::sheet::{Sheet, SheetEntry, EMPTY};
use reference::sizes::OUTCOME_TARGET;

fn pair(device: &Device, outcome: &Outcome) -> RecordPair {
    RecordPair {
        device: device.encode(),
        outcome: outcome.encode(),
    }
}

/// Two devices with their fresh records.
fn two() -> Vec<RecordPair> {
    let of = |device: Device| pair(&device, &Outcome::fresh(&device));
    vec![of(tty_usb0()), of(device_at("/devices/sda3"))]
}

fn packed(records: &[RecordPair]) -> Vec<u8> {
    let set = RecordSet {
        entries: records.to_vec(),
    };
    set.encode()
}

/// Number and count, then what is written.
fn run_each(
    text: &str,
    set: &[u8],
    sheet: &[u8],
    room: usize,
    numbers: usize,
) -> (u32, u32, Vec<u8>, Vec<u32>) {
    let mut targets = vec![0xAA; room];
    let mut answers = vec![0xAAAA_AAAA; numbers];
    let answer = reference::run_each(text.as_bytes(), set, sheet, &mut targets, &mut answers);
    assert_eq!((answer.line, answer.visited, answer.used), (0, 0, 0));
    assert_eq!((answer.tried, answer.position), (0, 0));
    (answer.number, answer.count, targets, answers)
}

#[test]
fn each_record_has_its_own_answer_and_target() {
    let text = "SYMLINK+=\"link%n\"\nATTRS{serial}==\"RC*\", TAG+=\"a\"";
    let room = 2 * OUTCOME_TARGET;
    let (number, count, targets, answers) = run_each(text, &packed(&two()), EMPTY, room, 16);
    assert_eq!((number, count), (0, 2));
    let links_and_tags = |place: usize, chain: usize| {
        let used = answers[8 * place + 3] as usize;
        let (record, rest) = targets[place * OUTCOME_TARGET..][..OUTCOME_TARGET].split_at(used);
        assert!(rest.iter().all(|&byte| byte == 0));
        let outcome = Outcome::decode(record, chain).expect("a sound record");
        (strings(&outcome.links), strings(&outcome.tags))
    };
    let used = |place: usize| answers[8 * place + 3];
    assert_eq!(answers[..8], [0, 0, 2, used(0), 2, 0, 0, 0]);
    assert_eq!(answers[8..], [0, 0, 2, used(1), 1, 0, 0, 0]);
    assert_eq!(
        links_and_tags(0, 2),
        (vec!["link0".into()], vec!["a".into()])
    );
    assert_eq!(links_and_tags(1, 1), (vec!["link3".into()], vec![]));
}

#[test]
fn a_refused_run_is_refused_in_its_own_answer() {
    let text = "TAG+=\"a\"\nKERNEL==\"tty*\", MODE=\"8\"";
    let mut records = two();
    records.extend(two());
    records[2].device.clear();
    records[3].outcome.clear();
    let room = 4 * OUTCOME_TARGET;
    let (number, count, targets, answers) = run_each(text, &packed(&records), EMPTY, room, 32);
    assert_eq!((number, count), (0, 4));
    assert_eq!(answers[..8], [34, 2, 0, 0, 0, 0, 0, 0]);
    assert_eq!(answers[8..11], [0, 0, 2]);
    assert_eq!(answers[16..24], [3, 0, 0, 0, 0, 0, 0, 0]);
    assert_eq!(answers[24..], [4, 0, 0, 0, 0, 0, 0, 0]);
    let is_zero = |place: usize| {
        let target = &targets[place * OUTCOME_TARGET..][..OUTCOME_TARGET];
        target.iter().all(|&byte| byte == 0)
    };
    assert_eq!([0, 1, 2, 3].map(is_zero), [true, false, true, true]);
}

#[test]
fn a_refused_text_or_sheet_is_refused_in_each_answer() {
    let room = 2 * OUTCOME_TARGET;
    let answers_of = |text: &str, sheet: &[u8]| {
        let (number, count, targets, answers) = run_each(text, &packed(&two()), sheet, room, 16);
        assert_eq!((number, count), (0, 2));
        assert!(targets.iter().all(|&byte| byte == 0));
        answers
    };
    let refused = |number, line| [number, line, 0, 0, 0, 0, 0, 0].repeat(2);
    assert_eq!(answers_of("\nNAME", EMPTY), refused(11, 2));
    assert_eq!(answers_of(&"\n".repeat(32_769), EMPTY), refused(2, 0));
    assert_eq!(answers_of("", b""), refused(6, 0));
    assert_eq!(answers_of("PROGRAM=\"x\"", EMPTY), refused(35, 1));
}

#[test]
fn one_sheet_serves_all() {
    let sheet = Sheet {
        entries: vec![SheetEntry {
            command: b"id ttyUSB0".to_vec(),
            success: true,
            output: b"said".to_vec(),
        }],
    };
    let room = 2 * OUTCOME_TARGET;
    let set = packed(&two());
    let (_, _, _, answers) = run_each("PROGRAM=\"id %k\"", &set, &sheet.encode(), room, 16);
    assert_eq!((answers[0], answers[8], answers[9]), (0, 35, 1));
}

#[test]
fn refusals_of_the_call_itself() {
    let set = packed(&two());
    let refused = |set: &[u8], room, numbers| {
        let (number, count, targets, answers) = run_each("", set, EMPTY, room, numbers);
        if number != 0 {
            assert_eq!(count, 0);
            assert!(targets.iter().all(|&byte| byte == 0));
            assert!(answers.iter().all(|&number| number == 0));
        }
        number
    };
    let room = 2 * OUTCOME_TARGET;
    assert_eq!(refused(&set, room, 16), 0);
    assert_eq!(refused(&set, room - 1, 16), 1);
    assert_eq!(refused(&set, room, 15), 1);
    assert_eq!(refused(&set, 0, 0), 1);
    // What is no set asks for no room.
    assert_eq!(refused(b"", 0, 0), 7);
    assert_eq!(refused(&set[..set.len() - 1], 0, 0), 7);
    assert_eq!(refused(&[&set[..], b"\0"].concat(), room, 16), 7);
    let many = packed(&vec![two()[0].clone(); 65]);
    assert_eq!(refused(&many, 65 * OUTCOME_TARGET, 65 * 8), 7);
    let most = packed(&vec![two()[0].clone(); 64]);
    assert_eq!(refused(&most, 64 * OUTCOME_TARGET, 64 * 8), 0);
}

#[test]
fn what_is_behind_is_zero() {
    let room = 3 * OUTCOME_TARGET + 7;
    let (number, count, targets, answers) = run_each("", &packed(&two()), EMPTY, room, 20);
    assert_eq!((number, count), (0, 2));
    assert!(targets[2 * OUTCOME_TARGET..].iter().all(|&byte| byte == 0));
    assert_eq!(answers[16..], [0; 4]);
    let (number, count, targets, answers) = run_each("NAME", &[0], EMPTY, 5, 3);
    assert_eq!((number, count), (0, 0));
    assert_eq!((targets, answers), (vec![0; 5], vec![0; 3]));
    assert_eq!(run_each("NAME", &[0], EMPTY, 0, 0).0, 0);
}

fn each_cases() -> impl Iterator<Item = Case> {
    (0..8_000)
        .map(case)
        .filter(|case| matches!(case.extra, Extra::RunEach { .. }))
}

#[test]
fn generated_sets_run_as_their_records_alone() {
    let (mut ran, mut refused) = (0, 0);
    for case in each_cases() {
        let replies = replies(&Reference, &case);
        assert_eq!(broken_claim(&Reference, &case, &replies), None);
        let each = replies.last().expect("a reply");
        ran += each.answers().filter(|answer| answer[0] == 0).count();
        refused += each.answers().filter(|answer| answer[0] != 0).count();
    }
    assert!(ran > 200, "{ran}");
    assert!(refused > 200, "{refused}");
}

/// The reference with a change to what it writes for each record.
struct Flawed(fn(&mut Written));

impl Engine for Flawed {
    fn answer(&self, request: &Request, written: &mut Written) -> AnswerArray {
        let answer = Reference.answer(request, written);
        if let (Request::RunEach { .. }, 0) = (request, answer[0]) {
            (self.0)(written);
        }
        answer
    }
}

#[test]
fn the_claim_finds_an_engine_that_breaks_it() {
    let finds = |flaw| {
        let engine = Flawed(flaw);
        each_cases().any(|case| broken_claim(&engine, &case, &replies(&engine, &case)).is_some())
    };
    assert!(finds(|written| {
        if let Some(line) = written.answers.get_mut(9) {
            *line += 1;
        }
    }));
    assert!(finds(|written| if written.answers.len() > 16 {
        written.target[OUTCOME_TARGET + 1] ^= 1;
    }));
    assert!(!finds(|_| {}));
}
