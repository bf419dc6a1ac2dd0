//! Runs of each record of a set, at the limits of the set and of the rooms.

use super::edge_cases::{of_text, some_device};
use super::edges::{edge, Edge};
use super::rng::Rng;
use super::{Case, Extra};
use crate::outcome::Outcome;
use crate::record_set::{RecordPair, RecordSet};
use crate::sizes;

/// What a record's own run gives is in its own answer, and refuses nothing here.
pub const EACH_EDGES: &[Edge] = &[
    edge("each of no records", 0, |rng| of_each(&[], rng)),
    edge("each of 64 records", 0, |rng| {
        let records = vec![record(rng); 64];
        of_each(&records, rng)
    }),
    edge("each of 65 records", 7, |rng| {
        let records = vec![record(rng); 65];
        of_each(&records, rng)
    }),
    edge("each of some faulty records", 0, |rng| {
        let mut records = vec![record(rng); 4];
        records[0].device.clear();
        records[2].outcome.clear();
        of_each(&records, rng)
    }),
    edge("each with a faulty sheet", 6, |rng| {
        let records = vec![record(rng); 2];
        let mut case = of_each(&records, rng);
        case.sheet.clear();
        case
    }),
    edge("each with a faulty text", 11, |rng| {
        let records = vec![record(rng); 2];
        let mut case = of_each(&records, rng);
        case.text = b"\nNAME".to_vec();
        case
    }),
    edge("each with a byte less", 1, |rng| {
        let set = set_of(&vec![record(rng); 2]);
        of_rooms(set, 2 * sizes::OUTCOME_TARGET - 1, 16, rng)
    }),
    edge("each with a number less", 1, |rng| {
        let set = set_of(&vec![record(rng); 2]);
        of_rooms(set, 2 * sizes::OUTCOME_TARGET, 15, rng)
    }),
    edge("each with more room", 0, |rng| {
        let set = set_of(&vec![record(rng); 2]);
        of_rooms(set, 3 * sizes::OUTCOME_TARGET + 5, 30, rng)
    }),
    edge("each of no set without room", 7, |rng| {
        of_rooms(Vec::new(), 0, 0, rng)
    }),
    edge("each of a set with a byte after it", 7, |rng| {
        let set = [set_of(&[record(rng)]), vec![0]].concat();
        of_rooms(set, sizes::OUTCOME_TARGET, 8, rng)
    }),
];

fn record(rng: &mut Rng) -> RecordPair {
    let device = some_device(rng);
    RecordPair {
        outcome: Outcome::fresh(&device).encode(),
        device: device.encode(),
    }
}

fn set_of(records: &[RecordPair]) -> Vec<u8> {
    let set = RecordSet {
        entries: records.to_vec(),
    };
    set.encode()
}

fn of_rooms(set: Vec<u8>, targets: usize, answers: usize, rng: &mut Rng) -> Case {
    let mut case = of_text(b"TAG+=\"a\", SYMLINK+=\"b%n\"".to_vec(), rng);
    case.extra = Extra::RunEach {
        set,
        targets,
        answers,
    };
    case
}

fn of_each(records: &[RecordPair], rng: &mut Rng) -> Case {
    let targets = records.len() * sizes::OUTCOME_TARGET;
    let answers = records.len() * sizes::ANSWER;
    of_rooms(set_of(records), targets, answers, rng)
}
