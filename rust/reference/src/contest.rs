//! Which of several records holds each link that one of them claims.

use crate::outcome::Outcome;
use crate::record::BitWriter;

/// The place of a record in the lent order, from 1.
pub type Position = usize;

#[derive(Clone, Debug, PartialEq, Eq)]
pub struct Contested {
    pub name: Vec<u8>,
    pub holder: Position,
    /// In lent order.
    pub others: Vec<Position>,
}

/// Every claimed name, in the order of the first claims.
pub fn contest(outcomes: &[Outcome]) -> Vec<Contested> {
    let mut names: Vec<&[u8]> = Vec::new();
    for link in outcomes.iter().flat_map(|outcome| &outcome.links) {
        if !names.contains(&link.as_slice()) {
            names.push(link);
        }
    }
    let contested = |name| contested(name, outcomes);
    names.into_iter().map(contested).collect()
}

fn contested(name: &[u8], outcomes: &[Outcome]) -> Contested {
    let claims = |outcome: &Outcome| outcome.links.iter().any(|link| link == name);
    let claimants: Vec<Position> = (1..)
        .zip(outcomes)
        .filter(|(_, outcome)| claims(outcome))
        .map(|(position, _)| position)
        .collect();
    let priority = |position: Position| outcomes[position - 1].priority;
    let mut holder = claimants[0];
    for &claimant in &claimants {
        if priority(claimant) > priority(holder) {
            holder = claimant;
        }
    }
    Contested {
        name: name.to_vec(),
        holder,
        others: claimants
            .into_iter()
            .filter(|&position| position != holder)
            .collect(),
    }
}

pub fn encode(list: &[Contested]) -> Vec<u8> {
    let mut writer = BitWriter::new();
    for contested in list {
        writer.count(8, contested.name.len());
        writer.count(8, contested.holder);
        writer.count(8, contested.others.len());
        writer.text(&contested.name);
        for &other in &contested.others {
            writer.count(8, other);
        }
    }
    writer.finish()
}
