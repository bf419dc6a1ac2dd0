//! Faulty lines struck: document 02, Item 12.

mod common;

use std::collections::{BTreeMap, BTreeSet};

use common::*;
use reference::generate::case;
use reference::lines::{lines, Line};
use reference::refusal::Fault;
use reference::rules::{self, read_line};
use reference::sizes::TEXT;

const NUMBERS: usize = 2 * 16_384;

/// The number, what is left of the text, and the struck lines with their faults.
fn strike_into(text: &[u8], room: usize, numbers: usize) -> (u32, Vec<u8>, Vec<(u16, u16)>) {
    let mut target = vec![0xAA; room];
    let mut strikes = vec![0xAAAA; numbers];
    let answer = reference::strike(text, &mut target, &mut strikes);
    assert_eq!((answer.line, answer.visited, answer.tried), (0, 0, 0));
    assert_eq!(answer.position, 0);
    let (left, rest) = target.split_at(answer.used as usize);
    assert!(rest.iter().all(|&byte| byte == 0));
    let (listed, rest) = strikes.split_at(2 * answer.count as usize);
    assert!(rest.iter().all(|&number| number == 0));
    let listed = listed.chunks(2).map(|entry| (entry[0], entry[1]));
    (answer.number, left.to_vec(), listed.collect())
}

/// What an accepted strike leaves, and the struck lines.
fn struck(text: impl AsRef<[u8]>) -> (String, Vec<(u16, u16)>) {
    let (number, left, strikes) = strike_into(text.as_ref(), TEXT, NUMBERS);
    assert_eq!(number, 0);
    assert_eq!(check(&left), (0, 0), "what is left is accepted");
    (string(&left), strikes)
}

#[track_caller]
fn assert_struck(text: impl AsRef<[u8]>, left: &str, strikes: &[(u16, u16)]) {
    assert_eq!(struck(text), (left.to_string(), strikes.to_vec()));
}

#[test]
fn faulty_lines_lose_their_bytes_and_keep_their_newlines() {
    assert_struck(
        "TAG+=\"a\"\nNAME=\"x\"\n# c\nTAG+=\"b\"\n",
        "TAG+=\"a\"\n\n# c\nTAG+=\"b\"\n",
        &[(2, 11)],
    );
    assert_struck("x", "", &[(1, 11)]);
    assert_struck("x\n", "\n", &[(1, 11)]);
    assert_struck("TAG+=\"a\"\nx", "TAG+=\"a\"\n", &[(2, 11)]);
    assert_struck("\n\nx\n\n", "\n\n\n\n", &[(3, 11)]);
}

#[test]
fn each_fault_of_a_line_strikes_it() {
    let too_many = vec!["TAG+=\"a\""; 33].join(",");
    let long_value = format!("TAG==\"{}\"", "v".repeat(257));
    for (line, fault) in [
        ("# c\0", 10),
        ("NAME=\"x\"", 11),
        ("ATTR==\"x\"", 12),
        ("KERNEL=\"x\"", 13),
        ("KERNEL==\"x", 14),
        (&long_value, 14),
        ("KERNEL==\"[\"", 15),
        (&too_many, 16),
        ("LABEL=\"a\",LABEL=\"b\"", 16),
        ("KERNEL==\"x\" y", 17),
    ] {
        let text = format!("TAG+=\"a\"\n{line}\nTAG+=\"b\"");
        assert_struck(text, "TAG+=\"a\"\n\nTAG+=\"b\"", &[(2, fault)]);
    }
}

#[test]
fn the_first_fault_of_a_line_is_the_one_given() {
    // 20 before 10, 10 before the pairs, and pair by pair.
    assert_struck("x\0\\", "", &[(1, 20)]);
    assert_struck("x\0", "", &[(1, 10)]);
    assert_struck("KERNEL==\"[\", NAME=\"x\"", "", &[(1, 15)]);
    assert_struck("NAME=\"x\", KERNEL==\"[\"", "", &[(1, 11)]);
}

#[test]
fn skipped_lines_are_struck_for_10() {
    assert_struck("#\0\nTAG+=\"a\"", "\nTAG+=\"a\"", &[(1, 10)]);
    let long = |byte: &str, length| format!("{}\n#", byte.repeat(length));
    assert_struck(long("#", 1_025), "\n#", &[(1, 10)]);
    assert_struck(long(" ", 1_025), "\n#", &[(1, 10)]);
    assert_struck(long("#", 1_024), &long("#", 1_024), &[]);
}

#[test]
fn a_join_goes_together() {
    assert_struck(
        "TAG+=\\\nx\\\ny\nTAG+=\"b\"",
        "\n\n\nTAG+=\"b\"",
        &[(1, 14)],
    );
    assert_struck(
        "TAG+=\"a\",\\\nTAG+=\"b\"\nTAG\\\n+=\n",
        "TAG+=\"a\",\\\nTAG+=\"b\"\n\n\n",
        &[(3, 14)],
    );
    // A comment joins nothing, and is kept where its neighbour goes.
    assert_struck("# c\\\nx\n#", "# c\\\n\n#", &[(2, 11)]);
    // One that only the join makes goes on.
    assert_struck("\\\n# c\\\nx\ny", "\\\n# c\\\nx\n", &[(4, 11)]);
}

#[test]
fn an_open_join_is_one_line() {
    assert_struck("TAG+=\"a\"\\\n", "\n", &[(1, 20)]);
    assert_struck("TAG+=\"a\"\\", "", &[(1, 20)]);
    assert_struck("TAG+=\"a\"\n\\\n# c\\\n", "TAG+=\"a\"\n\n\n", &[(2, 20)]);
    assert_struck("x\ny\\\nz\\", "\n\n", &[(1, 11), (2, 20)]);
    assert_struck("# c\\", "# c\\", &[]);
    assert_struck("# c\\\n", "# c\\\n", &[]);
}

#[test]
fn rules_past_the_512th_of_those_kept() {
    let rules = "TAG+=\"a\"\n".repeat(512);
    assert_struck(&rules, &rules, &[]);
    assert_struck(
        format!("{rules}# c\nTAG+=\"b\"\nTAG+=\"c\"\n"),
        &format!("{rules}# c\n\n\n"),
        &[(514, 18), (515, 18)],
    );
    // Lines that are struck already, and skipped ones, do not count.
    assert_struck(
        format!("x\n# c\n\n{rules}"),
        &format!("\n# c\n\n{rules}"),
        &[(1, 11)],
    );
    // A faulty line past the 512th is struck for its fault.
    assert_struck(
        format!("{rules}x\nTAG+=\"b\""),
        &format!("{rules}\n"),
        &[(513, 11), (514, 18)],
    );
    // A jump past the 512th is 18, whether answered or not.
    assert_struck(
        format!("{rules}GOTO=\"l\"\nLABEL=\"l\""),
        &format!("{rules}\n"),
        &[(513, 18), (514, 18)],
    );
}

#[test]
fn strikes_for_19_make_no_room() {
    let rules = "TAG+=\"a\"\n".repeat(511);
    assert_struck(
        format!("bad\n{rules}GOTO=\"l\"\nLABEL=\"l\""),
        &format!("\n{rules}\n"),
        &[(1, 11), (513, 19), (514, 18)],
    );
}

#[test]
fn jumps_that_no_later_label_answers() {
    assert_struck("GOTO=\"a\"", "", &[(1, 19)]);
    assert_struck("LABEL=\"a\"\nGOTO=\"a\"", "LABEL=\"a\"\n", &[(2, 19)]);
    assert_struck("LABEL=\"a\", GOTO=\"a\"", "", &[(1, 19)]);
    let answered = "GOTO=\"a\"\nLABEL=\"b\"\nLABEL=e\"\\x61\"";
    assert_struck(answered, answered, &[]);
    // A label on a line that is struck answers nothing.
    assert_struck("GOTO=\"a\"\nLABEL=\"a\", x", "\n", &[(1, 19), (2, 11)]);
    let past_another = "LABEL=\"a\", GOTO=\"a\"\nLABEL=\"a\"";
    assert_struck(past_another, past_another, &[]);
}

#[test]
fn jumps_are_judged_from_the_last_line() {
    // The last jump goes to nowhere and takes its label along, and so do those before it.
    assert_struck(
        "GOTO=\"a\"\nLABEL=\"a\", GOTO=\"b\"\nLABEL=\"b\", GOTO=\"c\"\nTAG+=\"x\"",
        "\n\n\nTAG+=\"x\"",
        &[(1, 19), (2, 19), (3, 19)],
    );
    // The check names only the first of the lines that are to nowhere as the text stands.
    assert_eq!(check("GOTO=\"a\"\nLABEL=\"a\", GOTO=\"b\""), (19, 2));
    // Another label with the name may still answer.
    assert_struck(
        "GOTO=\"a\"\nLABEL=\"a\", GOTO=\"b\"\nLABEL=\"a\"",
        "GOTO=\"a\"\n\nLABEL=\"a\"",
        &[(2, 19)],
    );
}

#[test]
fn strikes_are_listed_by_line_and_not_by_pass() {
    let rules = "TAG+=\"a\"\n".repeat(511);
    assert_struck(
        format!("GOTO=\"x\"\n{rules}TAG+=\"b\"\nbad\n"),
        &format!("\n{rules}\n\n"),
        &[(1, 19), (513, 18), (514, 11)],
    );
}

#[test]
fn what_is_refused_while_running_is_kept() {
    for text in ["MODE=\"0666\"", "SYMLINK=\"/\"", "OWNER=\"\""] {
        assert_struck(text, text, &[]);
    }
}

#[test]
fn the_order_of_refusals() {
    let long = vec![b'\n'; TEXT + 1];
    assert_eq!(strike_into(&long, TEXT - 1, NUMBERS).0, 1);
    assert_eq!(strike_into(&long, TEXT, NUMBERS - 1).0, 1);
    assert_eq!(strike_into(b"", TEXT - 1, NUMBERS).0, 1);
    assert_eq!(strike_into(b"", TEXT, NUMBERS - 1).0, 1);
    assert_eq!(strike_into(b"", 0, 0).0, 1);
    assert_eq!(strike_into(&long, TEXT, NUMBERS).0, 2);
    assert_eq!(strike_into(&long[1..], TEXT, NUMBERS).0, 0);
    assert_eq!(strike_into(b"x", TEXT + 9, NUMBERS + 9).0, 0);
}

#[test]
fn the_most_strikes_have_room() {
    let (left, strikes) = struck("x\n".repeat(16_384));
    assert_eq!(left, "\n".repeat(16_384));
    assert_eq!(strikes.len(), 16_384);
    assert_eq!(strikes.last(), Some(&(16_384, 11)));
    let (_, strikes) = struck(format!("{}x", "\n".repeat(32_767)));
    assert_eq!(strikes, [(32_768, 11)]);
}

/// Whether the lines give each of these faults as the Item describes it, with what is left.
fn stated_grounds_hold(lines: &[Line], left: &[u8], strikes: &[(u16, u16)]) -> bool {
    let kept = rules::read(left).expect("an accepted text");
    let mut rules_before = 0;
    let mut strikes = strikes.iter().copied().peekable();
    for line in lines {
        let read = read_line(line);
        let is_this = |(number, _): &(u16, u16)| u32::from(*number) == line.number;
        let fault = strikes.next_if(is_this).map(|(_, fault)| u32::from(fault));
        let is_grounded = match (fault, &read) {
            (None, _) => read.is_ok(),
            (Some(18), Ok(Some(_))) => rules_before >= 512,
            (Some(19), Ok(Some(pairs))) => {
                let goto = rules::goto_of(pairs);
                let mut later = kept.iter().filter(|rule| rule.line > line.number);
                goto.is_some() && !later.any(|rule| rule.label() == goto)
            }
            (Some(number), _) => read.clone().map_err(Fault::number) == Err(number),
        };
        if !is_grounded {
            return false;
        }
        rules_before += usize::from(matches!(read, Ok(Some(_))));
    }
    strikes.next().is_none()
}

#[test]
fn what_is_wanted_of_generated_texts() {
    let mut counts = BTreeMap::new();
    for seed in 0..6_000 {
        let text = case(seed).text;
        let (number, left, strikes) = strike_into(&text, TEXT, NUMBERS);
        if number == 2 {
            assert!(text.len() > TEXT);
            continue;
        }
        assert_eq!(number, 0, "seed {seed}");
        assert_eq!(check(&left), (0, 0), "seed {seed}");
        if check(&text) == (0, 0) {
            assert_eq!((&left, strikes.len()), (&text, 0), "seed {seed}");
        }
        // Each kept line has its number and bytes, each struck one has lost its bytes.
        let (before, after) = (physical_lines(&text), physical_lines(&left));
        assert_eq!(before.len(), after.len(), "seed {seed}");
        let lines = lines(&text);
        let firsts: BTreeSet<u32> = lines.iter().map(|line| line.number).collect();
        let struck: BTreeSet<u32> = strikes.iter().map(|(line, _)| u32::from(*line)).collect();
        let mut is_struck = false;
        for (number, (before, after)) in (1..).zip(before.into_iter().zip(after)) {
            if firsts.contains(&number) {
                is_struck = struck.contains(&number);
            }
            assert_eq!(after, if is_struck { b"" } else { before }, "seed {seed}");
        }
        assert!(strikes.windows(2).all(|pair| pair[0].0 < pair[1].0));
        assert!(stated_grounds_hold(&lines, &left, &strikes), "seed {seed}");
        for (_, fault) in &strikes {
            *counts.entry(*fault).or_insert(0) += 1;
        }
        assert_eq!(strike_into(&left, TEXT, NUMBERS), (0, left.clone(), vec![]));
    }
    for fault in 10..=20 {
        assert!(counts[&fault] > 20, "{counts:?}");
    }
}

fn physical_lines(text: &[u8]) -> Vec<&[u8]> {
    text.split(|&byte| byte == b'\n').collect()
}
