//! What document 01 says of joined texts, of the reference itself.

mod common;

use common::*;
use reference::compare::{Engine, Reference, Request};
use reference::generate::joins::{cut_text, join_list, CutText, JoinList};
use reference::joined::{check_cuts, check_list, crossing_jump, run_of};
use reference::outcome::Outcome;
use reference::request::Written;
use reference::rules;
use reference::sheet::EMPTY;
use reference::sizes::{RULES, TEXT};

const LISTS: u64 = 20_000;
const CUT_TEXTS: u64 = 20_000;

#[test]
fn generated_lists_are_as_the_claim_wants_them() {
    for seed in 0..LISTS / 10 {
        let list = join_list(seed);
        assert!((2..=6).contains(&list.texts.len()));
        let (_, all_but_last) = list.texts.split_last().expect("some texts");
        for text in all_but_last {
            assert!(text.is_empty() || text.ends_with(b"\n"));
        }
        for text in &list.texts {
            assert_eq!(check(text), (0, 0));
        }
        let rule_count: usize = list
            .texts
            .iter()
            .map(|text| rules::read(text).expect("an accepted text").len())
            .sum();
        assert!(rule_count <= RULES);
        assert!(list.texts.concat().len() <= TEXT);
        let cut_text = cut_text(seed);
        assert_eq!(check(&cut_text.text), (0, 0));
        assert_eq!(cut_text.pieces().concat(), cut_text.text);
    }
}

#[test]
fn joins_run_as_their_texts_in_a_row() {
    let mut accepted = 0;
    let mut refused = 0;
    let mut at_a_limit = 0;
    for seed in 0..LISTS {
        let list = join_list(seed);
        if let Err(message) = check_list(&Reference, &list) {
            panic!("seed {seed}: {message}");
        }
        let join = list.texts.concat();
        let run = run_of(&Reference, &list, &join, &list.outcome);
        match run.number() {
            0 => accepted += 1,
            30..=36 => refused += 1,
            number => panic!("seed {seed}: {number} is no refusal of a running rule"),
        }
        at_a_limit += u32::from(join.len() + 1 >= TEXT);
    }
    assert!(accepted > 1_000, "{accepted} accepted");
    assert!(refused > 1_000, "{refused} refused");
    assert!(at_a_limit > 50, "{at_a_limit} at a limit");
}

#[test]
fn pieces_are_accepted_exactly_when_no_jump_crosses_a_cut() {
    let mut crossing = 0;
    let mut not_crossing = 0;
    for seed in 0..CUT_TEXTS {
        let cut_text = cut_text(seed);
        if let Err(message) = check_cuts(&Reference, &cut_text) {
            panic!("seed {seed}: {message}");
        }
        let rules = rules::read(&cut_text.text).expect("an accepted text");
        let has_jump = rules.iter().any(|rule| rule.jump.is_some());
        if crossing_jump(&rules, &cut_text).is_some() {
            crossing += 1;
        } else if has_jump && !cut_text.cuts.is_empty() {
            not_crossing += 1;
        }
    }
    assert!(crossing > 500, "{crossing} crossing");
    assert!(not_crossing > 500, "{not_crossing} not crossing");
}

fn list(texts: &[&str]) -> JoinList {
    let device = tty_usb0();
    JoinList {
        texts: texts.iter().map(|text| text.as_bytes().to_vec()).collect(),
        device: device.encode(),
        outcome: Outcome::fresh(&device).encode(),
        sheet: EMPTY.to_vec(),
    }
}

fn run_of_join(texts: &[&str]) -> [u32; 8] {
    let list = list(texts);
    check_list(&Reference, &list).expect("the claim holds");
    let join = list.texts.concat();
    run_of(&Reference, &list, &join, &list.outcome).answer
}

#[test]
fn joins_by_hand() {
    // Visited counts add up: 2 and 1 and 0 and 2 of 3.
    let answer = run_of_join(&[
        "TAG=\"a\"\nTAG==\"a\", TAG+=\"b\"\n",
        "TAG==\"b\", TAG:=\"c\"\n",
        "",
        "GOTO=\"x\", TAG+=\"d\"\nTAG+=\"e\"\nLABEL=\"x\"",
    ]);
    // The header, and one tag with its length.
    assert_eq!(answer, [0, 0, 5, 15, 0, 0, 0, 0]);
    // So do the devices that are tried: 2 of 2 in vain, then 1, then none and 2.
    let answer = run_of_join(&[
        "KERNELS==\"no\"\n",
        "SUBSYSTEMS==\"tty\"\n",
        "KERNEL==\"no\", KERNELS==\"1-1\"\nKERNELS==\"1-1\"",
    ]);
    assert_eq!(answer, [0, 0, 4, 13, 5, 0, 0, 0]);
    // The line counts on: two lines and one before the second of the third text.
    let answer = run_of_join(&["\nTAG=\"a\"\n", "# b\n", "\nSYMLINK=\"/\"\n", "MODE=\"9\""]);
    assert_eq!(answer, [31, 5, 0, 0, 0, 0, 0, 0]);
    let answer = run_of_join(&["TAG=\"a\"\n\n", "# b\nMODE=\"0662\"\n", "MODE=\"9\""]);
    assert_eq!(answer, [36, 4, 0, 0, 0, 0, 0, 0]);
}

#[test]
fn the_claim_is_not_of_texts_that_run_together() {
    // Without a newline at its end, a text is no part of such a list.
    let list = list(&["TAG=\"a\"", "TAG=\"b\""]);
    assert!(check_list(&Reference, &list).is_err());
}

fn cut(text: &str, cuts: &[usize]) -> CutText {
    CutText {
        text: text.as_bytes().to_vec(),
        cuts: cuts.to_vec(),
    }
}

#[test]
fn cuts_by_hand() {
    let text = "GOTO=\"a\"\nTAG+=\"x\"\nLABEL=\"a\"\nLABEL=\"a\"\n";
    let after_lines = [9, 18, 28, 38];
    let crosses = |cuts: &[usize]| {
        let cut_text = cut(text, cuts);
        check_cuts(&Reference, &cut_text).expect("the claim holds");
        let rules = rules::read(text.as_bytes()).expect("an accepted text");
        crossing_jump(&rules, &cut_text).is_some()
    };
    assert!(!crosses(&[]));
    assert!(crosses(&after_lines[..1]));
    assert!(crosses(&after_lines[1..2]));
    assert!(
        !crosses(&after_lines[2..3]),
        "the jump goes to the next label"
    );
    assert!(!crosses(&after_lines[3..]));
    assert!(crosses(&after_lines));
}

/// An engine that accepts every text.
struct Lenient;

impl Engine for Lenient {
    fn answer(&self, request: &Request, written: &mut Written) -> [u32; 8] {
        match *request {
            Request::Check { .. } => [0; 8],
            Request::Run {
                text,
                device,
                outcome,
                sheet,
            } => {
                // Runs only the first line of a text.
                let end = text.iter().position(|&byte| byte == b'\n');
                let first_line = Request::Run {
                    text: &text[..end.unwrap_or(text.len())],
                    device,
                    outcome,
                    sheet,
                };
                Reference.answer(&first_line, written)
            }
            _ => Reference.answer(request, written),
        }
    }
}

#[test]
fn the_checks_find_an_engine_that_breaks_the_claims() {
    assert!((0..100).any(|seed| check_list(&Lenient, &join_list(seed)).is_err()));
    assert!((0..100).any(|seed| check_cuts(&Lenient, &cut_text(seed)).is_err()));
}
