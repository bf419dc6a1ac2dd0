//! The names and numbers of the bindings are those of the header.

use std::collections::BTreeMap;

use spillfinch::{sizes, Refusal};

fn header() -> &'static str {
    include_str!("../../../include/spillfinch.h")
}

/// The names that the header defines as plain numbers.
fn defined() -> BTreeMap<&'static str, usize> {
    let definition = |line: &'static str| {
        let (name, number) = line.strip_prefix("#define SPILLFINCH_")?.split_once(' ')?;
        Some((name, number.trim().parse().ok()?))
    };
    header().lines().filter_map(definition).collect()
}

/// The numbers of the refusals, as the header enumerates them.
fn refusals() -> Vec<u32> {
    let (_, rest) = header()
        .split_once("enum spillfinch_refusal {")
        .expect("the header has its refusals");
    let (names, _) = rest.split_once("};").expect("their end");
    names
        .lines()
        .filter_map(|line| line.split_once(" = "))
        .map(|(_, rest)| rest.chars().take_while(char::is_ascii_digit).collect())
        .map(|digits: String| digits.parse().expect("a number"))
        .collect()
}

#[test]
fn sizes_are_those_of_the_header() {
    let defined = defined();
    for (name, size) in [
        ("OUTCOME_ROOM", sizes::OUTCOME_ROOM),
        ("OLD_OUTCOME_ROOM", sizes::OLD_OUTCOME_ROOM),
        ("RUN_LIST_ROOM", sizes::RUN_LIST_ROOM),
        ("STRIKES_ROOM", sizes::STRIKES_ROOM),
        ("CONTEST_ROOM", sizes::CONTEST_ROOM),
        ("RECORDS_MOST", sizes::RECORDS_MOST),
        ("FILES_MOST", sizes::FILES_MOST),
        ("FILE_NAME_MOST", sizes::FILE_NAME_MOST),
        ("WANTED_MOST", sizes::WANTED_MOST),
        ("WANTED_LINK_MOST", sizes::WANTED_LINK_MOST),
        ("TEXT_MOST", sizes::TEXT_MOST),
        ("SHEET_MOST", sizes::SHEET_MOST),
        ("LINE_MOST", sizes::LINE_MOST),
        ("VALUE_MOST", sizes::VALUE_MOST),
        ("PAIRS_MOST", sizes::PAIRS_MOST),
        ("RULES_MOST", sizes::RULES_MOST),
    ] {
        assert_eq!(defined.get(name), Some(&size), "{name}");
    }
}

#[test]
fn refusals_are_those_of_the_header() {
    let mut numbers = vec![0];
    numbers.extend(Refusal::ALL.map(Refusal::number));
    assert_eq!(refusals(), numbers);
}

#[test]
fn texts_name_the_limits() {
    for (refusal, size) in [
        (Refusal::TextLong, sizes::TEXT_MOST),
        (Refusal::LineBad, sizes::LINE_MOST),
        (Refusal::ValueBad, sizes::VALUE_MOST),
        (Refusal::PairExtra, sizes::PAIRS_MOST),
        (Refusal::RuleExtra, sizes::RULES_MOST),
    ] {
        assert!(refusal.text().contains(&size.to_string()), "{refusal}");
    }
}
