//! Plans at the limits of their sets, and with conditions that just hold or just do not.

use super::edge_cases::{long_text, of_text, padded_device, some_device};
use super::edges::{edge, Edge};
use super::rng::Rng;
use super::{Case, Extra};
use crate::sizes;
use crate::wanted_set::{Wanted, WantedSet};

/// Without a plan, and with one that is not accepted, nothing is refused.
pub const PLAN_EDGES: &[Edge] = &[
    edge("no device to name", 7, |rng| of_set(vec![0], rng)),
    edge("one device to name", 0, |rng| of_count(1, rng)),
    edge("16 devices to name", 0, |rng| of_count(16, rng)),
    edge("17 devices to name", 7, |rng| of_count(17, rng)),
    edge("no set of wanted links", 7, |rng| of_set(Vec::new(), rng)),
    edge("byte after the wanted links", 7, |rng| {
        of_set([numbered(rng, 2), vec![0]].concat(), rng)
    }),
    edge("wanted links without their last byte", 7, |rng| {
        let mut set = numbered(rng, 2);
        set.pop();
        of_set(set, rng)
    }),
    edge("wanted link of 128", 0, |rng| of_link(vec![b'l'; 128], rng)),
    edge("wanted link of 129", 0, |rng| of_link(vec![b'l'; 129], rng)),
    edge("wanted link of 255", 0, |rng| of_link(vec![b'l'; 255], rng)),
    edge("wanted link of no bytes", 0, |rng| of_link(Vec::new(), rng)),
    edge("wanted link with NUL", 0, |rng| {
        of_link(b"a\0".to_vec(), rng)
    }),
    edge("wanted links alike", 0, |rng| {
        let mut entries = wanted(rng, 2);
        entries[1].link = entries[0].link.clone();
        of_entries(entries, rng)
    }),
    edge("paths alike", 0, |rng| {
        let mut entries = wanted(rng, 2);
        entries[1].device = entries[0].device.clone();
        of_entries(entries, rng)
    }),
    edge("path of 128 to name", 0, |rng| of_path(128, rng)),
    edge("path of 129 to name", 0, |rng| of_path(129, rng)),
    edge("faulty device to name", 3, |rng| {
        let mut entries = wanted(rng, 3);
        entries[1].device.push(0);
        of_entries(entries, rng)
    }),
    edge("device of 16,384 to name", 0, |rng| {
        let mut entries = wanted(rng, 2);
        entries[1].device = padded_device(16_384);
        of_entries(entries, rng)
    }),
    edge("device of 65,535 to name", 3, |rng| {
        let mut entries = wanted(rng, 2);
        entries[1].device.resize(65_535, 0);
        of_entries(entries, rng)
    }),
    edge("proposal of 65,535", 0, |rng| {
        let set = numbered(rng, 1);
        of_plan(set, long_text(65_535), sizes::TEXT, rng)
    }),
    edge("plan with a byte less", 1, |rng| {
        let set = numbered(rng, 1);
        of_plan(set, Vec::new(), sizes::TEXT - 1, rng)
    }),
    edge("plan for no set with a byte less", 7, |rng| {
        // The check, which has no target, comes first.
        of_plan(Vec::new(), Vec::new(), sizes::TEXT - 1, rng)
    }),
];

/// So many devices with plain paths and links of their own.
fn wanted(rng: &mut Rng, count: usize) -> Vec<Wanted> {
    (0..count)
        .map(|index| {
            let path = format!("/devices/port:0.{index}/tty-{index}");
            Wanted {
                device: device_at(path.as_bytes(), rng),
                link: format!("counter/{index}").into_bytes(),
            }
        })
        .collect()
}

fn device_at(path: &[u8], rng: &mut Rng) -> Vec<u8> {
    let mut device = some_device(rng);
    device.chain.truncate(1);
    device.chain[0].path = path.to_vec();
    device.encode()
}

fn packed(entries: Vec<Wanted>) -> Vec<u8> {
    WantedSet { entries }.encode()
}

fn numbered(rng: &mut Rng, count: usize) -> Vec<u8> {
    packed(wanted(rng, count))
}

fn of_plan(set: Vec<u8>, proposal: Vec<u8>, room: usize, rng: &mut Rng) -> Case {
    let mut case = of_text(b"TAG+=\"a\"".to_vec(), rng);
    case.extra = Extra::Plan {
        set,
        proposal,
        room,
    };
    case
}

fn of_set(set: Vec<u8>, rng: &mut Rng) -> Case {
    of_plan(set, b"SYMLINK=\"counter/0\"".to_vec(), sizes::TEXT, rng)
}

fn of_entries(entries: Vec<Wanted>, rng: &mut Rng) -> Case {
    of_set(packed(entries), rng)
}

fn of_count(count: usize, rng: &mut Rng) -> Case {
    let set = numbered(rng, count);
    of_set(set, rng)
}

fn of_link(link: Vec<u8>, rng: &mut Rng) -> Case {
    let mut entries = wanted(rng, 2);
    entries[1].link = link;
    of_entries(entries, rng)
}

fn of_path(length: usize, rng: &mut Rng) -> Case {
    let mut path = b"/devices/".to_vec();
    path.resize(length, b'7');
    let mut entries = wanted(rng, 2);
    entries[1].device = device_at(&path, rng);
    of_entries(entries, rng)
}
