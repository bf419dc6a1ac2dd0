//! Generated sets of rules files, mostly laid out soundly, of texts that are mostly accepted.

use super::damage::{damage, damage_layout, damage_text, random_bytes};
use super::edge_cases::long_text;
use super::joins::accepted_text;
use super::rng::Rng;
use super::world::World;
use crate::file_set::{FileSet, Rank, RulesFile};
use crate::sizes;

/// Some of them count; several files have one name.
const NAMES: &[&[u8]] = &[
    b"10-a.rules",
    b"10-a.rules",
    b"20-b.rules",
    b"20-b.rules",
    b"9.rules",
    b"Z.rules",
    b"z.rules",
    b"z.rules.rules",
    b".rules",
    b"a b\0/\xff.rules",
    b"10-a.rule",
    b"10-a.RULES",
    b"20-b.rules ",
    b"rules",
    b"README",
];

/// A set, and one with the same files in another order unless it is damaged.
pub fn file_sets(rng: &mut Rng, world: &World) -> (Vec<u8>, Vec<u8>) {
    let mut set = file_set(rng, world);
    let mut bytes = set.encode();
    rng.shuffle(&mut set.files);
    let permuted = set.encode();
    match rng.below(100) {
        0..=87 => {}
        88..=95 => damage_layout(rng, &mut bytes, sizes::SET_FILES),
        96..=97 => damage(rng, &mut bytes),
        _ => bytes = random_bytes(rng, 200),
    }
    (bytes, permuted)
}

fn file_set(rng: &mut Rng, world: &World) -> FileSet {
    let count = match rng.below(100) {
        0..=2 => 0,
        3..=89 => rng.between(1, 5),
        90..=98 => rng.between(6, 12),
        _ => sizes::SET_FILES,
    };
    let mut set = FileSet::default();
    while set.files.len() < count {
        let file = file(rng, world, set.files.len());
        set.files.push(file);
        if set.has_equal_files() && rng.percent(97) {
            set.files.pop();
        }
    }
    set
}

fn file(rng: &mut Rng, world: &World, index: usize) -> RulesFile {
    let name = match rng.below(100) {
        0..=91 => rng.pick(NAMES).to_vec(),
        92..=97 => format!("{index}.rules").into_bytes(),
        _ => vec![b'n'; sizes::FILE_NAME],
    };
    RulesFile {
        rank: rng.pick(&Rank::ALL),
        name,
        text: text(rng, world),
    }
}

fn text(rng: &mut Rng, world: &World) -> Vec<u8> {
    let mut text = accepted_text(rng, world);
    match rng.below(100) {
        0..=84 => {}
        85..=91 => text.clear(),
        92..=97 => damage_text(rng, &mut text),
        98 => text = long_text(rng.pick(&[sizes::TEXT, sizes::TEXT + 1])),
        _ => text = random_bytes(rng, 100),
    }
    text
}
