//! Generated sets of devices with wanted links, mostly such that there is a plan, and proposals.

use super::damage::{damage, damage_layout, damage_text, random_bytes};
use super::edge_cases::long_text;
use super::rng::Rng;
use super::rules_text::rules_text;
use super::vocabulary::LINKS;
use super::world::{self, World};
use crate::device::Device;
use crate::outcome::Outcome;
use crate::plan::{plan, Naming};
use crate::sheet::Sheet;
use crate::sizes;
use crate::wanted_set::{Wanted, WantedSet};

/// A packed set, and a text that may be a plan for it.
pub fn set_and_proposal(rng: &mut Rng) -> (Vec<u8>, Vec<u8>) {
    let namings = namings(rng);
    let proposal = proposal(rng, &namings);
    let mut set = WantedSet {
        entries: namings.iter().map(wanted).collect(),
    };
    if rng.percent(10) {
        let place = rng.below(set.entries.len());
        damage(rng, &mut set.entries[place].device);
    }
    let mut bytes = set.encode();
    match rng.below(100) {
        0..=87 => {}
        88..=95 => damage_layout(rng, &mut bytes, sizes::SET_WANTED),
        96..=97 => damage(rng, &mut bytes),
        _ => bytes = random_bytes(rng, 200),
    }
    (bytes, proposal)
}

fn wanted(naming: &Naming) -> Wanted {
    Wanted {
        device: naming.device.encode(),
        link: naming.link.clone(),
    }
}

fn namings(rng: &mut Rng) -> Vec<Naming> {
    let count = match rng.below(100) {
        0..=89 => rng.between(1, 5),
        90..=96 => rng.between(6, 15),
        _ => sizes::SET_WANTED,
    };
    let mut namings: Vec<Naming> = (0..count).map(|index| naming(rng, index)).collect();
    if rng.percent(15) {
        make_odd(rng, &mut namings);
    }
    namings
}

/// A device with a plain path that no other has, and a clean link.
fn naming(rng: &mut Rng, index: usize) -> Naming {
    let mut device = world::device(rng);
    device.chain.truncate(1);
    device.chain[0].path = format!("/devices/usb1/1-1.{index}:1.0/tty_{index}").into_bytes();
    let link = match LINKS.get(index) {
        Some(link) if rng.percent(80) => link.to_vec(),
        _ => format!("by-path/#+=@{index}").into_bytes(),
    };
    Naming { device, link }
}

/// Breaks one of the conditions under which there must be a plan, or comes close to it.
fn make_odd(rng: &mut Rng, namings: &mut [Naming]) {
    let other = rng.pick_ref(namings).clone();
    let place = rng.below(namings.len());
    let naming = &mut namings[place];
    let path = &mut naming.device.chain[0].path;
    match rng.below(8) {
        0 => *path = other.device.chain[0].path.clone(),
        1 => naming.link = other.link,
        2 => {
            let links: &[&[u8]] = &[
                b"", b"/a", b"a b", b"a//b", b"..", b"a\n", b"%k", b"\xe4", b"a/",
            ];
            naming.link = rng.pick(links).to_vec();
        }
        3 => naming.link = vec![b'l'; rng.pick(&[127, 128, 129, 255])],
        4 => path.resize(rng.pick(&[127, 128, 129, 256]), b'7'),
        5 => path.push(rng.pick(b"+ *[|?\"$%\xe4\\\n")),
        6 => naming.device = world::device(rng),
        _ => path.truncate(9),
    }
}

/// Mostly the reference's plan or another, or close to one.
fn proposal(rng: &mut Rng, namings: &[Naming]) -> Vec<u8> {
    let mut text = if rng.percent(50) {
        plan(namings).unwrap_or_default()
    } else {
        other_plan(rng, namings)
    };
    match rng.below(100) {
        0..=59 => {}
        60..=74 => damage_text(rng, &mut text),
        75..=84 => text.extend(rules_text(rng, &world_of(&namings[0]))),
        85..=92 => text.extend_from_slice(rng.pick(MORE_LINES)),
        93..=94 => text = long_text(rng.pick(&[sizes::TEXT, sizes::TEXT + 1])),
        _ => text = rules_text(rng, &world_of(&namings[0])),
    }
    text
}

const MORE_LINES: &[&[u8]] = &[
    b"SYMLINK+=\"more\"",
    b"SYMLINK+=\"a\"",
    b"SYMLINK-=\"a\"",
    b"TAG+=\"more\"",
    b"MODE=\"8\"",
    b"PROGRAM=\"x\"",
    b"KERNEL==\"nothing\", PROGRAM=\"x\"",
    b"GOTO=\"end\"",
    b"# nothing more",
];

/// Rules that name each device by its name and close its links.
fn other_plan(rng: &mut Rng, namings: &[Naming]) -> Vec<u8> {
    let mut rules: Vec<Vec<u8>> = namings
        .iter()
        .map(|naming| {
            let name = naming.device.event_device().name();
            let link = &naming.link;
            [&b"KERNEL==\""[..], name, b"\", SYMLINK:=\"", link, b"\"\n"].concat()
        })
        .collect();
    rng.shuffle(&mut rules);
    rules.concat()
}

fn world_of(naming: &Naming) -> World {
    let device: Device = naming.device.clone();
    World {
        outcome: Outcome::fresh(&device),
        device,
        commands: Vec::new(),
        sheet: Sheet::default(),
    }
}
