//! Texts with many faulty lines, for a strike.

use super::edge_cases::comment;
use super::faults::FAULTY_PAIRS;
use super::rng::Rng;
use super::rules_text::{broken, lines};
use super::world::World;
use crate::sizes;

pub fn text_to_strike(rng: &mut Rng, world: &World) -> Vec<u8> {
    let mut lines = if rng.percent(10) {
        around_the_last_rule(rng)
    } else {
        (0..rng.between(1, 12)).map(|_| line(rng, world)).collect()
    };
    if rng.percent(10) {
        lines.push(
            rng.pick(&[&b"TAG+=\"a\"\\"[..], b"\\\n\\", b"x\\\n"])
                .to_vec(),
        );
    }
    let mut text = lines.join(&b'\n');
    if rng.percent(60) {
        text.push(b'\n');
    }
    text.truncate(sizes::TEXT);
    text
}

fn line(rng: &mut Rng, world: &World) -> Vec<u8> {
    let line = match rng.below(100) {
        0..=24 => lines(rng, world, 1).join(&b'\n'),
        25..=49 => faulty_line(rng),
        50..=89 => jump_line(rng),
        _ => rng
            .pick(&[&b"# c"[..], b"", b"# \0", b" \0", b"#\\", b"\\\n#"])
            .to_vec(),
    };
    if line.ends_with(b"\\") || line.is_empty() || rng.percent(80) {
        line
    } else {
        broken(rng, line)
    }
}

fn faulty_line(rng: &mut Rng) -> Vec<u8> {
    match rng.below(20) {
        0 => comment(1_025),
        1 => comment(1_024),
        _ => {
            let (_, pairs) = rng.pick(FAULTY_PAIRS);
            let label = rng.pick(&["", "", "LABEL=\"a\", "]);
            [label.as_bytes(), rng.pick(pairs).as_bytes()].concat()
        }
    }
}

/// A GOTO, a LABEL or both, of so few names that they often answer each other.
fn jump_line(rng: &mut Rng) -> Vec<u8> {
    let names = ["a", "b", "c", "d"];
    let label = format!("LABEL=\"{}\"", rng.pick(&names));
    let goto = format!("GOTO=\"{}\"", rng.pick(&names));
    match rng.below(4) {
        0 => label,
        1 => goto,
        2 => format!("{label},{goto}"),
        _ => format!("{goto}, {label}"),
    }
    .into_bytes()
}

/// Rules up to the last that a text may have and a few more, among them jumps.
fn around_the_last_rule(rng: &mut Rng) -> Vec<Vec<u8>> {
    let count = rng.between(sizes::RULES - 3, sizes::RULES + 20);
    let faults_in_100 = rng.pick(&[0, 1, 5]);
    (0..count)
        .map(|index| {
            if rng.percent(faults_in_100) {
                rng.pick(&[&b"x"[..], b"# c", b"TAG+=\"\0\"", b"KERNEL==\"[\""])
                    .to_vec()
            } else if index > sizes::RULES - 15 || rng.percent(2) {
                jump_line(rng)
            } else {
                b"TAG+=\"a\"".to_vec()
            }
        })
        .collect()
}
