//! Generated rules texts that have to do with a device and an outcome.

use super::pairs::{assignment_pair, match_pair, options_pair, pair, parent_pairs};
use super::rng::Rng;
use super::sheets::asking_pairs;
use super::vocabulary::LABELS;
use super::world::World;
use crate::key::Operator;
use crate::sizes;

/// A text of some rules, mostly accepted.
pub fn rules_text(rng: &mut Rng, world: &World) -> Vec<u8> {
    let count = match rng.below(100) {
        0..=1 => 0,
        2..=89 => rng.between(1, 6),
        90..=98 => rng.between(7, 15),
        _ => rng.between(16, 60),
    };
    let mut text = lines(rng, world, count).join(&b'\n');
    if rng.percent(70) {
        text.push(b'\n');
    }
    text
}

/// The lines of so many rules, with skipped lines between them.
pub fn lines(rng: &mut Rng, world: &World, count: usize) -> Vec<Vec<u8>> {
    let labels: Vec<Option<&[u8]>> = (0..count)
        .map(|_| rng.percent(20).then(|| rng.pick(LABELS)))
        .collect();
    let mut lines = Vec::new();
    for index in 0..count {
        if rng.percent(10) {
            lines.push(skipped_line(rng));
        }
        let mut pairs = rule_pairs(rng, world);
        if let Some(label) = labels[index] {
            let label = pair(rng, b"LABEL", Operator::Assign, label);
            insert_somewhere(rng, &mut pairs, label);
        }
        if let Some(label) = jump_label(rng, &labels[index + 1..]) {
            let goto = pair(rng, b"GOTO", Operator::Assign, label);
            insert_somewhere(rng, &mut pairs, goto);
        }
        let line = joined_pairs(rng, pairs);
        lines.push(if rng.percent(10) {
            broken(rng, line)
        } else {
            line
        });
    }
    lines
}

/// The line, broken where a backslash and a newline join it again.
pub fn broken(rng: &mut Rng, mut line: Vec<u8>) -> Vec<u8> {
    let mut places: Vec<usize> = (0..rng.between(1, 3))
        .map(|_| rng.below(line.len()))
        .collect();
    if rng.percent(3) {
        places.push(line.len());
    }
    places.sort_unstable();
    for place in places.into_iter().rev() {
        line.splice(place..place, *b"\\\n");
    }
    line
}

/// The label of a later rule, seldom of any.
fn jump_label<'a>(rng: &mut Rng, later: &[Option<&'a [u8]>]) -> Option<&'a [u8]> {
    let later: Vec<&[u8]> = later.iter().copied().flatten().collect();
    if !later.is_empty() && rng.percent(25) {
        Some(rng.pick(&later))
    } else {
        rng.percent(1).then(|| rng.pick(LABELS))
    }
}

fn skipped_line(rng: &mut Rng) -> Vec<u8> {
    let lines: &[&[u8]] = &[
        b"",
        b"  \t",
        b"# comment",
        b" \t# KERNEL==\"x\"",
        b"#",
        b"# no join\\",
        b"\t#\\",
        b"\\\n",
        b" \\\n\t\\\n ",
        b"\\\n# joined\\\nKERNEL==\"x\"",
    ];
    rng.pick(lines).to_vec()
}

fn insert_somewhere(rng: &mut Rng, pairs: &mut Vec<Vec<u8>>, pair: Vec<u8>) {
    let place = rng.between(0, pairs.len());
    pairs.insert(place, pair);
}

/// The pairs on one line; those that would make it too long are left out.
pub fn joined_pairs(rng: &mut Rng, pairs: Vec<Vec<u8>>) -> Vec<u8> {
    let separators: &[&[u8]] = &[b", ", b", ", b",", b" ,\t"];
    let mut line = Vec::new();
    for pair in pairs {
        if line.is_empty() {
            line = pair;
        } else if line.len() + pair.len() + 3 <= sizes::LINE {
            line.extend_from_slice(rng.pick(separators));
            line.extend(pair);
        }
    }
    if rng.percent(5) && line.len() + 3 <= sizes::LINE {
        line.insert(0, b'\t');
        line.extend_from_slice(b" \t");
    }
    line
}

fn rule_pairs(rng: &mut Rng, world: &World) -> Vec<Vec<u8>> {
    let mut pairs = Vec::new();
    for _ in 0..rng.below(3) {
        pairs.push(match_pair(rng, world));
    }
    if rng.percent(35) {
        pairs.extend(parent_pairs(rng, world));
    }
    if rng.percent(14) {
        pairs.extend(asking_pairs(rng, world));
    }
    if rng.percent(15) {
        pairs.push(options_pair(rng));
    }
    for _ in 0..rng.between(1, 4) {
        pairs.push(assignment_pair(rng, world));
    }
    if rng.percent(20) {
        rng.shuffle(&mut pairs);
    }
    pairs
}
