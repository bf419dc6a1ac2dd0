//! What is asked for beside the check, the fresh record, the run and the close.

use super::damage::damage;
use super::file_sets::file_sets;
use super::plans::set_and_proposal;
use super::record_sets::{record_set, record_set_with};
use super::rng::Rng;
use super::world::World;
use super::Case;
use crate::device::Device;
use crate::outcome::{Edition, Outcome, Watch};
use crate::record_set::{RecordPair, RecordSet};
use crate::sizes;

#[derive(Clone, Debug, PartialEq, Eq)]
pub enum Extra {
    Nothing,
    /// The holders of the links that the records of a set claim.
    Contest {
        set: Vec<u8>,
        room: usize,
    },
    /// A run of the files of a set, and one with these in another order. The device, the outcome
    /// and the sheet are the case's.
    RunFiles {
        set: Vec<u8>,
        permuted: Vec<u8>,
        room: usize,
    },
    /// A check of a proposed plan for the wanted links of a set, and a plan for it.
    Plan {
        set: Vec<u8>,
        proposal: Vec<u8>,
        room: usize,
    },
    /// A run for each record of a set, with the case's text and sheet.
    RunEach {
        set: Vec<u8>,
        targets: usize,
        /// In numbers.
        answers: usize,
    },
    /// The conversion of a record of edition 1, that of the case's outcome record, and back.
    Convert {
        old: Vec<u8>,
        /// The lengths of the targets.
        newer: usize,
        older: usize,
    },
    /// The text written back, and that written back again.
    Write {
        room: usize,
    },
    /// The faulty lines of the text struck, and a strike of what that leaves.
    Strike {
        room: usize,
        /// The length of the list, in numbers.
        strikes: usize,
    },
}

pub fn extra(rng: &mut Rng, case: &Case) -> Extra {
    match rng.below(100) {
        0..=5 => convert(rng, case),
        6..=13 => Extra::Write {
            room: room(rng, sizes::TEXT),
        },
        14..=16 => strike(rng),
        17..=22 => Extra::Contest {
            set: record_set(rng),
            room: room(rng, sizes::CONTEST_TARGET),
        },
        23..=27 => plan(rng),
        28..=31 => run_each(rng, case),
        _ => Extra::Nothing,
    }
}

fn run_each(rng: &mut Rng, case: &Case) -> Extra {
    let set = record_set_with(
        rng,
        &RecordPair {
            device: case.device.clone(),
            outcome: case.outcome.clone(),
        },
    );
    let records = RecordSet::decode(&set).map_or(1, |set| set.entries.len());
    Extra::RunEach {
        set,
        targets: room(rng, records * sizes::OUTCOME_TARGET),
        answers: room(rng, records * sizes::ANSWER),
    }
}

fn plan(rng: &mut Rng) -> Extra {
    let (set, proposal) = set_and_proposal(rng);
    Extra::Plan {
        set,
        proposal,
        room: room(rng, sizes::TEXT),
    }
}

pub fn run_files(rng: &mut Rng, world: &World) -> Extra {
    let (set, permuted) = file_sets(rng, world);
    Extra::RunFiles {
        set,
        permuted,
        room: room(rng, sizes::OUTCOME_TARGET),
    }
}

pub fn strike(rng: &mut Rng) -> Extra {
    Extra::Strike {
        room: room(rng, sizes::TEXT),
        strikes: room(rng, 2 * sizes::STRIKES),
    }
}

/// The room that is needed, seldom less or more.
fn room(rng: &mut Rng, needed: usize) -> usize {
    match rng.below(100) {
        _ if needed == 0 => rng.pick(&[0, 0, 9]),
        0..=89 => needed,
        90..=94 => needed + rng.below(100),
        95..=97 => needed - 1,
        _ => rng.below(needed),
    }
}

fn convert(rng: &mut Rng, case: &Case) -> Extra {
    let mut old = record_of_edition_1(case);
    match rng.below(100) {
        0..=69 => {}
        70..=94 => damage(rng, &mut old),
        _ => old = case.outcome.clone(),
    }
    Extra::Convert {
        old,
        newer: room(rng, sizes::OUTCOME_TARGET),
        older: room(rng, sizes::OLD_OUTCOME_TARGET),
    }
}

/// The case's outcome record in edition 1, without what that cannot say; a fresh one if the case
/// has no sound one.
fn record_of_edition_1(case: &Case) -> Vec<u8> {
    let Some(device) = Device::decode(&case.device) else {
        return Outcome::default().encode_edition(Edition::First);
    };
    let outcome = Outcome::decode(&case.outcome, device.chain.len());
    let outcome = Outcome {
        output: Vec::new(),
        watch: Watch::Unset,
        ..outcome.unwrap_or_else(|| Outcome::fresh(&device))
    };
    outcome.encode_edition(Edition::First)
}
