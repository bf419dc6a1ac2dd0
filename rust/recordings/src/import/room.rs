//! Which entries of a recording find room in a record.

use std::collections::BTreeSet;

use super::left_out::{Kind, Notes, Reason};
use crate::device::{ChainDevice, Device};
use crate::packed::Entry;
use crate::recording::Block;
use crate::sizes;

/// The bytes that a record has left.
pub struct Room {
    bytes: usize,
}

/// An entry that may be kept: of which device, and which of its entries.
struct Candidate {
    place: usize,
    index: usize,
    is_named: bool,
}

impl Room {
    /// What is left behind the head of a record and the texts of its devices.
    pub fn behind(devices: &[ChainDevice]) -> Room {
        let texts = devices.iter().map(ChainDevice::packed_length_of_texts);
        let taken = Device::HEAD_LENGTH + texts.sum::<usize>();
        Room {
            bytes: sizes::DEVICE_MOST.saturating_sub(taken),
        }
    }

    pub fn keep_properties(
        &mut self,
        block: &Block,
        properties: Vec<Entry>,
        is_named: impl Fn(&[u8]) -> bool,
        notes: &mut Notes,
    ) -> Vec<Entry> {
        let limit = Limit {
            most: sizes::PROPERTIES_MOST,
            kind: Kind::Property,
            reason: Reason::Properties,
        };
        let kept = self.keep(&[block], vec![properties], is_named, &limit, notes);
        kept.into_iter().flatten().collect()
    }

    /// The attributes of each device of a chain that are kept.
    pub fn keep_attributes(
        &mut self,
        chain: &[&Block],
        attributes: Vec<Vec<Entry>>,
        named: &BTreeSet<Vec<u8>>,
        notes: &mut Notes,
    ) -> Vec<Vec<Entry>> {
        let limit = Limit {
            most: sizes::ATTRIBUTES_MOST,
            kind: Kind::Attribute,
            reason: Reason::Attributes,
        };
        let is_named = |name: &[u8]| named.contains(name);
        self.keep(chain, attributes, is_named, &limit, notes)
    }

    /// Keeps first what is named, then the rest, each in order while it fits; what is kept stays
    /// in the order of the recording.
    fn keep(
        &mut self,
        chain: &[&Block],
        entries: Vec<Vec<Entry>>,
        is_named: impl Fn(&[u8]) -> bool,
        limit: &Limit,
        notes: &mut Notes,
    ) -> Vec<Vec<Entry>> {
        let mut candidates = candidates(&entries, is_named);
        candidates.sort_by_key(|candidate| !candidate.is_named);
        let mut kept: Vec<BTreeSet<usize>> = vec![BTreeSet::new(); chain.len()];
        let mut is_full = false;
        let mut left: Vec<(usize, usize, Reason)> = Vec::new();
        for Candidate { place, index, .. } in candidates {
            let length = entries[place][index].packed_length();
            if kept[place].len() == limit.most {
                left.push((place, index, limit.reason));
            } else if is_full || length > self.bytes {
                is_full = true;
                left.push((place, index, Reason::Record));
            } else {
                self.bytes -= length;
                kept[place].insert(index);
            }
        }
        left.sort_by_key(|&(place, index, _)| (place, index));
        for (place, index, reason) in left {
            notes.add(
                chain[place],
                limit.kind,
                &entries[place][index].name,
                reason,
            );
        }
        let of_device = |(entries, kept): (Vec<Entry>, BTreeSet<usize>)| {
            let numbered = entries.into_iter().enumerate();
            numbered
                .filter(|(index, _)| kept.contains(index))
                .map(|(_, entry)| entry)
                .collect()
        };
        entries.into_iter().zip(kept).map(of_device).collect()
    }
}

/// How many entries one device may have, and what is said of the others.
struct Limit {
    most: usize,
    kind: Kind,
    reason: Reason,
}

fn candidates(entries: &[Vec<Entry>], is_named: impl Fn(&[u8]) -> bool) -> Vec<Candidate> {
    let mut candidates = Vec::new();
    for (place, entries) in entries.iter().enumerate() {
        for (index, entry) in entries.iter().enumerate() {
            candidates.push(Candidate {
                place,
                index,
                is_named: is_named(&entry.name),
            });
        }
    }
    candidates
}
