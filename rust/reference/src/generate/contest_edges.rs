//! Contests at the limits of their sets, of the records in these and of the room.

use super::edge_cases::{fullest, of_text, padded_device, some_device};
use super::edges::{edge, Edge};
use super::rng::Rng;
use super::{Case, Extra};
use crate::outcome::{Edition, Outcome};
use crate::record_set::{RecordPair, RecordSet};
use crate::sizes;

pub const CONTEST_EDGES: &[Edge] = &[
    edge("no claimants", 0, |rng| of_records(&[], rng)),
    edge("64 claimants of one link", 0, |rng| {
        of_records(&vec![claim(rng, &["a"]); 64], rng)
    }),
    edge("65 claimants", 7, |rng| {
        of_records(&vec![claim(rng, &["a"]); 65], rng)
    }),
    edge("the fullest list", 0, |rng| {
        let records: Vec<RecordPair> = (0..64).map(fullest_claim).collect();
        of_records(&records, rng)
    }),
    edge("the fullest records", 0, |rng| {
        let record = RecordPair {
            device: padded_device(16_384),
            outcome: fullest().encode(),
        };
        of_records(&[record.clone(), record], rng)
    }),
    edge("set of nothing", 7, |rng| of_set(Vec::new(), rng)),
    edge("byte after a set", 7, |rng| {
        of_set([some_set(rng), vec![0]].concat(), rng)
    }),
    edge("set without its last byte", 7, |rng| {
        let mut set = some_set(rng);
        set.pop();
        of_set(set, rng)
    }),
    edge("set cut in a length", 7, |rng| of_set(vec![1, 0], rng)),
    edge("records of nothing", 3, |rng| {
        of_set(vec![1, 0, 0, 0, 0], rng)
    }),
    edge("device of 65,535 in a set", 3, |rng| {
        let mut record = claim(rng, &["a"]);
        record.device.resize(65_535, 0);
        of_records(&[record], rng)
    }),
    edge("outcome of 65,535 in a set", 4, |rng| {
        let mut record = claim(rng, &["a"]);
        record.outcome.resize(65_535, 0);
        of_records(&[record], rng)
    }),
    edge("device of 16,385 in a set", 3, |rng| {
        let mut record = claim(rng, &["a"]);
        record.device = padded_device(16_385);
        of_records(&[record], rng)
    }),
    edge("faulty outcome before a faulty device", 4, |rng| {
        let mut records = vec![claim(rng, &["a"]); 3];
        records[1].outcome.clear();
        records[2].device.clear();
        of_records(&records, rng)
    }),
    edge("faulty device and outcome", 3, |rng| {
        let mut records = vec![claim(rng, &["a"]); 2];
        records[1].outcome.clear();
        records[1].device.clear();
        of_records(&records, rng)
    }),
    edge("world-writable mode in a set", 4, |rng| {
        of_claim(|outcome| outcome.mode = Some(0o666), rng)
    }),
    edge("outcome of edition 1 in a set", 4, |rng| {
        let mut record = claim(rng, &["a"]);
        record.outcome = Outcome::default().encode_edition(Edition::First);
        of_records(&[record], rng)
    }),
    edge("link that is not clean in a set", 0, |rng| {
        of_claim(|outcome| outcome.links = vec![b"a b\n\xff".to_vec()], rng)
    }),
    edge("contest with a byte less", 1, |rng| {
        of_contest(some_set(rng), sizes::CONTEST_TARGET - 1, rng)
    }),
    edge("contest with a byte more", 0, |rng| {
        of_contest(some_set(rng), sizes::CONTEST_TARGET + 1, rng)
    }),
    edge("contest of no set without room", 1, |rng| {
        of_contest(Vec::new(), 0, rng)
    }),
];

fn claim(rng: &mut Rng, links: &[&str]) -> RecordPair {
    let outcome = Outcome {
        links: links.iter().map(|link| link.as_bytes().to_vec()).collect(),
        priority: rng.pick(&[0, -1, 1, i32::MIN, i32::MAX]),
        ..Outcome::default()
    };
    RecordPair {
        device: some_device(rng).encode(),
        outcome: outcome.encode(),
    }
}

/// A claim of as many links as can be, as long as can be and no other's.
fn fullest_claim(index: usize) -> RecordPair {
    let link = |number| format!("{:0128}", 16 * index + number).into_bytes();
    let outcome = Outcome {
        links: (0..16).map(link).collect(),
        ..Outcome::default()
    };
    RecordPair {
        device: padded_device(100),
        outcome: outcome.encode(),
    }
}

fn some_set(rng: &mut Rng) -> Vec<u8> {
    let entries = vec![claim(rng, &["a", "b"]), claim(rng, &["b"])];
    RecordSet { entries }.encode()
}

fn of_contest(set: Vec<u8>, room: usize, rng: &mut Rng) -> Case {
    let mut case = of_text(b"TAG+=\"a\"".to_vec(), rng);
    case.extra = Extra::Contest { set, room };
    case
}

fn of_set(set: Vec<u8>, rng: &mut Rng) -> Case {
    of_contest(set, sizes::CONTEST_TARGET, rng)
}

fn of_records(records: &[RecordPair], rng: &mut Rng) -> Case {
    let set = RecordSet {
        entries: records.to_vec(),
    };
    of_set(set.encode(), rng)
}

/// A set of a sound record and one with that change.
fn of_claim(change: fn(&mut Outcome), rng: &mut Rng) -> Case {
    let mut outcome = Outcome::default();
    change(&mut outcome);
    let mut records = vec![claim(rng, &["a"]); 2];
    records[1].outcome = outcome.encode();
    of_records(&records, rng)
}
