//! Generated sets of records, mostly laid out soundly, of records that are mostly sound.

use super::damage::{damage, damage_layout, random_bytes};
use super::rng::Rng;
use super::world::claimant;
use crate::record_set::{RecordPair, RecordSet};
use crate::sizes;

pub fn record_set(rng: &mut Rng) -> Vec<u8> {
    let set = sound_set(rng);
    maybe_damaged(rng, set)
}

/// A set with the pair among its records.
pub fn record_set_with(rng: &mut Rng, pair: &RecordPair) -> Vec<u8> {
    let mut set = sound_set(rng);
    for entry in &mut set.entries {
        if rng.percent(40) {
            *entry = pair.clone();
        }
    }
    maybe_damaged(rng, set)
}

fn maybe_damaged(rng: &mut Rng, mut set: RecordSet) -> Vec<u8> {
    if !set.entries.is_empty() && rng.percent(25) {
        make_faulty(rng, &mut set.entries);
    }
    let mut bytes = set.encode();
    match rng.below(100) {
        0..=84 => {}
        85..=94 => damage_layout(rng, &mut bytes, sizes::SET_RECORDS),
        95..=97 => damage(rng, &mut bytes),
        _ => bytes = random_bytes(rng, 200),
    }
    bytes
}

fn sound_set(rng: &mut Rng) -> RecordSet {
    let count = match rng.below(100) {
        0..=1 => 0,
        2..=88 => rng.between(1, 6),
        89..=97 => rng.between(7, 20),
        _ => sizes::SET_RECORDS,
    };
    // Some records come up more than once.
    let records: Vec<RecordPair> = (0..count.min(8)).map(|_| sound_pair(rng)).collect();
    RecordSet {
        entries: (0..count)
            .map(|index| match records.get(index) {
                Some(first) if rng.percent(95) => first.clone(),
                _ => rng.pick_ref(&records).clone(),
            })
            .collect(),
    }
}

fn sound_pair(rng: &mut Rng) -> RecordPair {
    let (device, outcome) = claimant(rng);
    RecordPair {
        device: device.encode(),
        outcome: outcome.encode(),
    }
}

/// Makes one record or a few faulty.
fn make_faulty(rng: &mut Rng, entries: &mut [RecordPair]) {
    for _ in 0..rng.between(1, 2) {
        let place = rng.below(entries.len());
        let other = rng.pick_ref(entries).clone();
        let entry = &mut entries[place];
        match rng.below(10) {
            0..=2 => damage(rng, &mut entry.device),
            3..=5 => damage(rng, &mut entry.outcome),
            6 => entry.device.clear(),
            7 => entry.outcome.clear(),
            8 => flip_edition(&mut entry.outcome),
            // The places of its runs may not fit the chain.
            _ => entry.outcome = other.outcome,
        }
    }
}

/// Makes the record one of edition 1 by its first field.
fn flip_edition(record: &mut [u8]) {
    if let Some(first) = record.first_mut() {
        *first ^= 0x30;
    }
}
