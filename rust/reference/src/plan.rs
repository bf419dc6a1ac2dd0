//! Naming plans: a text that gives each device of a set the link that is wanted for it.

use crate::bytes::all_distinct;
use crate::device::Device;
use crate::engine::Runner;
use crate::link::{cleaned, is_sound_link};
use crate::outcome::Outcome;
use crate::rules::{self, Rule};
use crate::sheet::Sheet;
use crate::sizes;

/// A device with the link that is wanted for it.
#[derive(Clone, Debug, PartialEq, Eq)]
pub struct Naming {
    pub device: Device,
    pub link: Vec<u8>,
}

/// Whether the text gives each device its wanted link and no other.
pub fn is_plan(text: &[u8], namings: &[Naming]) -> bool {
    match rules::read(text) {
        Ok(rules) => namings.iter().all(|naming| names(&rules, naming)),
        Err(_) => false,
    }
}

fn names(rules: &[Rule], naming: &Naming) -> bool {
    let fresh = Outcome::fresh(&naming.device);
    let sheet = Sheet::default();
    match Runner::new(rules, &naming.device, &sheet, fresh).finish() {
        Ok(finished) => finished.outcome.links == [naming.link.clone()],
        Err(_) => false,
    }
}

/// A plan for the devices, or `None` if these or their links are such that there need not be one.
pub fn plan(namings: &[Naming]) -> Option<Vec<u8>> {
    let paths = || namings.iter().map(|naming| event_path(&naming.device));
    let links = || namings.iter().map(|naming| naming.link.as_slice());
    let can_be_planned = paths().all(is_plain_path)
        && all_distinct(paths())
        && links().all(is_clean_link)
        && all_distinct(links());
    can_be_planned.then(|| namings.iter().flat_map(rule).collect())
}

fn event_path(device: &Device) -> &[u8] {
    &device.event_device().path
}

fn is_plain_path(path: &[u8]) -> bool {
    let is_plain = |&byte: &u8| byte.is_ascii_alphanumeric() || b"/:._-".contains(&byte);
    path.len() <= sizes::PLANNED_PATH && path.iter().all(is_plain)
}

fn is_clean_link(link: &[u8]) -> bool {
    cleaned(link) == link && is_sound_link(link)
}

/// A plain path is a pattern that only itself matches, and a clean link is a template that inserts
/// nothing.
fn rule(naming: &Naming) -> Vec<u8> {
    let path = event_path(&naming.device);
    [
        &b"DEVPATH==\""[..],
        path,
        b"\", SYMLINK=\"",
        &naming.link,
        b"\"\n",
    ]
    .concat()
}
