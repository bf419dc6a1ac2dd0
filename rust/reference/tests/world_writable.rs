//! Modes that let others write: document 02, Item 8.

mod common;

use common::*;
use reference::outcome::{Closed, Outcome};
use reference::sheet::EMPTY;
use reference::sizes::{OUTCOME_TARGET, RUN_LIST_TARGET};

#[test]
fn the_last_digit_decides() {
    let device = device_at("/a");
    for digit in 0..8 {
        for before in ["", "0", "77", "066", "200"] {
            let text = format!("\nMODE=\"{before}{digit}\"");
            if matches!(digit, 2 | 3 | 6 | 7) {
                assert_eq!(refusal(&text, &device), (36, 2), "{text}");
            } else {
                assert!(outcome_of(&text, &device).mode.is_some(), "{text}");
            }
        }
    }
    assert_eq!(outcome_of("MODE=\"2220\"", &device).mode, Some(0o2220));
}

#[test]
fn the_substituted_mode_counts() {
    let device = device_with(&[("A", "0666")]);
    assert_eq!(refusal("MODE:=\"$env{A}\"", &device), (36, 1));
    // The number of sda3.
    assert_eq!(refusal("MODE=\"66%n\"", &device), (36, 1));
    assert_eq!(outcome_of("MODE=\"6%n0\"", &device).mode, Some(0o630));
}

#[test]
fn a_faulty_mode_comes_first() {
    let device = device_with(&[("A", &"2".repeat(256))]);
    for mode in ["00002", "888", "82", "2 "] {
        let text = format!("MODE=\"{mode}\"");
        assert_eq!(refusal(&text, &device), (34, 1), "{text}");
    }
    let text = "MODE=\"$env{A}$env{A}2\"";
    assert_eq!(refusal(text, &device), (30, 1));
}

#[test]
fn in_running_order() {
    let device = device_at("/a");
    for (text, expected) in [
        ("SYMLINK=\"/\", MODE=\"0666\"", (31, 1)),
        ("MODE=\"0666\", SYMLINK=\"/\"", (36, 1)),
        ("MODE=\"8\", MODE=\"0666\"", (34, 1)),
        ("MODE=\"0666\", MODE=\"8\"", (36, 1)),
        ("# c\nMODE=\"0660\"\nMODE=\"0002\"\nOWNER=\"\"", (36, 3)),
    ] {
        assert_eq!(refusal(text, &device), expected, "{text}");
    }
}

#[test]
fn only_where_the_assignment_takes_place() {
    let device = device_at("/a");
    assert_eq!(check("MODE=\"0666\""), (0, 0));
    let outcome = outcome_of("MODE=\"0666\", KERNEL==\"b\"", &device);
    assert_eq!(outcome.mode, None);
    let outcome = outcome_of("GOTO=\"x\"\nMODE=\"0666\"\nLABEL=\"x\"", &device);
    assert_eq!(outcome.mode, None);
    let outcome = outcome_of("MODE:=\"0660\", MODE=\"0666\"\nMODE:=\"2\"", &device);
    assert_eq!(outcome.mode, Some(0o660));
}

#[test]
fn such_a_record_is_faulty() {
    let device = device_at("/a").encode();
    for is_closed in [false, true] {
        let number = |mode: u32| {
            let outcome = Outcome {
                mode: Some(mode),
                closed: Closed {
                    mode: is_closed,
                    ..Closed::default()
                },
                ..Outcome::default()
            };
            let outcome = outcome.encode();
            let run = reference::run(b"", &device, &outcome, EMPTY, &mut vec![0; OUTCOME_TARGET]);
            let close = reference::close(&device, &outcome, &mut vec![0; RUN_LIST_TARGET]);
            assert_eq!((run.number, run.line), (close.number, close.line));
            (run.number, run.line)
        };
        assert_eq!(number(0o666), (4, 0));
        assert_eq!(number(0o002), (4, 0));
        assert_eq!(number(0o7777), (4, 0));
        assert_eq!(number(0o7775), (0, 0));
        assert_eq!(number(0), (0, 0));
    }
}
