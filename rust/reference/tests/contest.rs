//! Two counters, one link: document 02, Item 7.

mod common;

use common::*;
use reference::device::Device;
use reference::generate::record_sets::record_set;
use reference::generate::rng::Rng;
use reference::outcome::{Closed, Edition, Outcome};
use reference::record_set::{RecordPair, RecordSet};
use reference::sizes::CONTEST_TARGET;

/// Number, position and names, then the list.
fn contest_into(set: &[u8], room: usize) -> ([u32; 3], Vec<u8>) {
    let mut target = vec![0xAA; room];
    let answer = reference::contest(set, &mut target);
    assert_eq!((answer.line, answer.visited, answer.tried), (0, 0, 0));
    let (list, rest) = target.split_at(answer.used as usize);
    assert!(rest.iter().all(|&byte| byte == 0));
    assert!(answer.number == 0 || list.is_empty());
    let numbers = [answer.number, answer.position, answer.count];
    (numbers, list.to_vec())
}

fn outcome(priority: i32, links: &[&str]) -> Outcome {
    Outcome {
        priority,
        links: links.iter().map(|link| link.as_bytes().to_vec()).collect(),
        ..Outcome::default()
    }
}

fn pair(device: &Device, outcome: &Outcome) -> RecordPair {
    RecordPair {
        device: device.encode(),
        outcome: outcome.encode(),
    }
}

fn set_of(outcomes: &[Outcome]) -> RecordSet {
    RecordSet {
        entries: outcomes
            .iter()
            .map(|outcome| pair(&tty_usb0(), outcome))
            .collect(),
    }
}

/// A name, its holder and its other claimants.
type Entry = (String, u8, Vec<u8>);

fn entry(name: &str, holder: u8, others: &[u8]) -> Entry {
    (name.to_string(), holder, others.to_vec())
}

/// The entries of a list, by its layout.
fn entries(mut list: &[u8]) -> Vec<Entry> {
    let mut entries = Vec::new();
    while let [name_length, holder, other_count, rest @ ..] = list {
        let (name, rest) = rest.split_at(usize::from(*name_length));
        let (others, rest) = rest.split_at(usize::from(*other_count));
        entries.push((string(name), *holder, others.to_vec()));
        list = rest;
    }
    assert!(list.is_empty());
    entries
}

/// The list of an accepted contest.
fn contest(outcomes: &[Outcome]) -> Vec<Entry> {
    let ([number, position, names], list) =
        contest_into(&set_of(outcomes).encode(), CONTEST_TARGET);
    assert_eq!((number, position), (0, 0));
    let entries = entries(&list);
    assert_eq!(names as usize, entries.len());
    entries
}

/// The number and position of a refused contest.
fn refused(set: &RecordSet) -> (u32, u32) {
    let ([number, position, names], _) = contest_into(&set.encode(), CONTEST_TARGET);
    assert_eq!(names, 0);
    (number, position)
}

#[test]
fn the_layout_of_a_set_and_of_a_list() {
    let device = tty_usb0().encode();
    let outcome = outcome(0, &["ab"]).encode();
    let length = |record: &[u8]| (record.len() as u16).to_be_bytes().to_vec();
    let record = [
        length(&device),
        device.clone(),
        length(&outcome),
        outcome.clone(),
    ]
    .concat();
    let set = [vec![2], record.clone(), record].concat();
    let (numbers, list) = contest_into(&set, CONTEST_TARGET);
    assert_eq!(numbers, [0, 0, 1]);
    assert_eq!(list, [&[2, 1, 1][..], b"ab", &[2]].concat());
    assert_eq!(CONTEST_TARGET, 134_144);
}

#[test]
fn the_highest_priority_holds_and_of_equals_the_earliest() {
    assert_eq!(
        contest(&[outcome(0, &["a"]), outcome(1, &["a"]), outcome(1, &["a"])]),
        [entry("a", 2, &[1, 3])]
    );
    assert_eq!(
        contest(&[outcome(0, &["a"]), outcome(0, &["a"])]),
        [entry("a", 1, &[2])]
    );
    // Signed, to both ends.
    assert_eq!(
        contest(&[
            outcome(i32::MIN, &["a"]),
            outcome(-1, &["a"]),
            outcome(i32::MIN, &["a"])
        ]),
        [entry("a", 2, &[1, 3])]
    );
    assert_eq!(
        contest(&[outcome(-1, &["a"]), outcome(i32::MAX, &["a"])]),
        [entry("a", 2, &[1])]
    );
    // A higher priority counts only for what the record claims.
    assert_eq!(
        contest(&[outcome(0, &["a"]), outcome(9, &["b"])]),
        [entry("a", 1, &[]), entry("b", 2, &[])]
    );
}

#[test]
fn names_come_in_the_order_of_first_claims() {
    assert_eq!(
        contest(&[
            outcome(0, &["c", "a"]),
            outcome(5, &["b", "a"]),
            outcome(7, &["d", "b", "c"]),
        ]),
        [
            entry("c", 3, &[1]),
            entry("a", 2, &[1]),
            entry("b", 3, &[2]),
            entry("d", 3, &[]),
        ]
    );
}

#[test]
fn the_other_claimants_follow_in_lent_order() {
    let priorities = [3, 1, 4, 1, 5, 9, 2, 6];
    let outcomes = priorities.map(|priority| outcome(priority, &["a"]));
    assert_eq!(contest(&outcomes), [entry("a", 6, &[1, 2, 3, 4, 5, 7, 8])]);
}

#[test]
fn names_are_compared_as_bytes() {
    assert_eq!(
        contest(&[outcome(0, &["a", "A", "a b"]), outcome(0, &["a_b", "ab"])]),
        [
            entry("a", 1, &[]),
            entry("A", 1, &[]),
            entry("a b", 1, &[]),
            entry("a_b", 2, &[]),
            entry("ab", 2, &[]),
        ]
    );
}

#[test]
fn records_without_links_claim_nothing() {
    assert_eq!(contest(&[]), []);
    assert_eq!(contest(&[outcome(0, &[]), outcome(1, &[])]), []);
    assert_eq!(
        contest(&[outcome(9, &[]), outcome(0, &["a"])]),
        [entry("a", 2, &[])]
    );
    // What else a record says does not matter.
    let mut closed = outcome(0, &["a"]);
    closed.closed = Closed {
        links: true,
        ..Closed::default()
    };
    closed.tags = vec![b"a".to_vec(), b"b".to_vec()];
    assert_eq!(contest(&[closed]), [entry("a", 1, &[])]);
}

#[test]
fn up_to_64_records() {
    let outcomes = vec![outcome(0, &["a"]); 64];
    let others: Vec<u8> = (2..=64).collect();
    assert_eq!(contest(&outcomes), [entry("a", 1, &others)]);
    let more = vec![outcome(0, &["a"]); 65];
    assert_eq!(refused(&set_of(&more)), (7, 0));
}

#[test]
fn the_fullest_list_has_room() {
    let links = |index: usize| {
        let link = |number| format!("{:0128}", 16 * index + number).into_bytes();
        Outcome {
            links: (0..16).map(link).collect(),
            ..Outcome::default()
        }
    };
    let outcomes: Vec<Outcome> = (0..64).map(links).collect();
    let (numbers, list) = contest_into(&set_of(&outcomes).encode(), CONTEST_TARGET);
    assert_eq!(numbers, [0, 0, 1_024]);
    assert_eq!(list.len(), CONTEST_TARGET);
}

#[test]
fn a_set_against_its_layout_is_7_after_1() {
    let set = set_of(&[outcome(0, &["a"])]).encode();
    let number = |set: &[u8], room| contest_into(set, room).0;
    assert_eq!(number(&set, CONTEST_TARGET), [0, 0, 1]);
    assert_eq!(number(&set, CONTEST_TARGET + 7), [0, 0, 1]);
    assert_eq!(number(&set, CONTEST_TARGET - 1), [1, 0, 0]);
    assert_eq!(number(b"", CONTEST_TARGET - 1), [1, 0, 0]);
    assert_eq!(number(b"", 0), [1, 0, 0]);
    assert_eq!(number(b"", CONTEST_TARGET), [7, 0, 0]);
    assert_eq!(number(&[0], CONTEST_TARGET), [0, 0, 0]);
    assert_eq!(number(&[0, 0], CONTEST_TARGET), [7, 0, 0]);
    for end in 0..set.len() {
        assert_eq!(number(&set[..end], CONTEST_TARGET), [7, 0, 0], "{end}");
    }
    assert_eq!(
        number(&[&set[..], b"\0"].concat(), CONTEST_TARGET),
        [7, 0, 0]
    );
    // The layout comes before the records in it.
    let mut faulty = set_of(&[outcome(0, &["a"])]);
    faulty.entries[0].device.clear();
    assert_eq!(
        number(&[faulty.encode(), vec![0]].concat(), CONTEST_TARGET),
        [7, 0, 0]
    );
}

#[test]
fn faulty_records_are_refused_with_their_position() {
    let sound = set_of(&vec![outcome(0, &["a"]); 3]);
    let refused_with = |change: fn(&mut [RecordPair])| {
        let mut set = sound.clone();
        change(&mut set.entries);
        refused(&set)
    };
    assert_eq!(refused_with(|set| set[0].device.clear()), (3, 1));
    assert_eq!(refused_with(|set| set[2].outcome.clear()), (4, 3));
    assert_eq!(refused_with(|set| set[1].device.push(0)), (3, 2));
    assert_eq!(refused_with(|set| set[1].outcome.push(0)), (4, 2));
    // Record by record, and of one record 3 before 4.
    assert_eq!(
        refused_with(|set| {
            set[1].outcome.clear();
            set[2].device.clear();
        }),
        (4, 2)
    );
    assert_eq!(
        refused_with(|set| {
            set[1].outcome.clear();
            set[1].device.clear();
        }),
        (3, 2)
    );
    // Records of any length up to 65,535 bytes can be laid out.
    assert_eq!(refused_with(|set| set[2].device.resize(65_535, 0)), (3, 3));
    assert_eq!(refused_with(|set| set[2].outcome.resize(65_535, 0)), (4, 3));
}

#[test]
fn records_are_judged_as_everywhere() {
    let with = |change: fn(&mut Outcome)| {
        let mut changed = outcome(0, &["a"]);
        change(&mut changed);
        refused(&set_of(&[outcome(0, &["a"]), changed]))
    };
    assert_eq!(with(|outcome| outcome.mode = Some(0o662)), (4, 2));
    assert_eq!(with(|outcome| outcome.links.push(b"a".to_vec())), (4, 2));
    assert_eq!(with(|outcome| outcome.links.push(b"../b".to_vec())), (4, 2));
    let mut old = set_of(&[outcome(0, &["a"])]);
    old.entries[0].outcome = outcome(0, &["a"]).encode_edition(Edition::First);
    assert_eq!(refused(&old), (4, 1));
}

#[test]
fn places_are_those_of_a_records_own_device() {
    let run_at_place_2 = outcome_of("KERNELS==\"1-1\", RUN+=\"x\"", &tty_usb0());
    let one = pair(&tty_usb0(), &run_at_place_2);
    let other = pair(&device_at("/devices/sda"), &run_at_place_2);
    let set = |entries: &[&RecordPair]| RecordSet {
        entries: entries.iter().map(|&entry| entry.clone()).collect(),
    };
    let ([number, ..], _) = contest_into(&set(&[&one, &one]).encode(), CONTEST_TARGET);
    assert_eq!(number, 0);
    assert_eq!(refused(&set(&[&one, &other])), (4, 2));
}

/// What is wanted of a list, said of each name and record.
fn assert_wanted(set: &RecordSet, list: &[Entry]) {
    let outcomes: Vec<Outcome> = set
        .entries
        .iter()
        .map(|entry| {
            let device = Device::decode(&entry.device).expect("a sound device");
            Outcome::decode(&entry.outcome, device.chain.len()).expect("a sound outcome")
        })
        .collect();
    let claims = |position: u8, name: &str| {
        let links = &outcomes[usize::from(position) - 1].links;
        links.iter().any(|link| string(link) == name)
    };
    let priority = |position: u8| outcomes[usize::from(position) - 1].priority;
    for link in outcomes.iter().flat_map(|outcome| &outcome.links) {
        let listed = list.iter().filter(|(name, ..)| *name == string(link));
        assert_eq!(listed.count(), 1);
    }
    for (name, holder, others) in list {
        assert!(claims(*holder, name));
        for position in 1..=outcomes.len() as u8 {
            let is_listed = position == *holder || others.contains(&position);
            assert_eq!(claims(position, name), is_listed);
            if is_listed {
                assert!(priority(position) <= priority(*holder));
                assert!(position >= *holder || priority(position) < priority(*holder));
            }
        }
        assert!(others.windows(2).all(|pair| pair[0] < pair[1]));
    }
}

#[test]
fn what_is_wanted_of_generated_sets() {
    let mut contested = 0;
    let mut refused = 0;
    for seed in 0..1_500 {
        let set = record_set(&mut Rng::new(seed));
        let ([number, position, names], list) = contest_into(&set, CONTEST_TARGET);
        match number {
            0 => {
                let records = RecordSet::decode(&set).expect("a set");
                assert_eq!(records.encode(), set, "seed {seed}");
                let list = entries(&list);
                assert_eq!(names as usize, list.len());
                assert_wanted(&records, &list);
                contested += list
                    .iter()
                    .filter(|(_, _, others)| !others.is_empty())
                    .count();
            }
            3 | 4 => {
                assert!(position > 0);
                refused += 1;
            }
            _ => assert_eq!((number, position), (7, 0)),
        }
    }
    assert!(contested > 500, "{contested}");
    assert!(refused > 50, "{refused}");
}
