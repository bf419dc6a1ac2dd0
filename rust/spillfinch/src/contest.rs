//! Which record holds a link that several claim.

use crate::calls::{self, Answer};
use crate::record_set::{lent_records, RecordPair};
use crate::{accepted_set, sizes, RefusedSet};

/// A name that is claimed. Positions count from 1 in the order in which the records were lent.
#[derive(Clone, Copy, Debug, PartialEq, Eq)]
pub struct Held<'a> {
    pub name: &'a [u8],
    /// The position of the record that holds the link.
    pub holder: u8,
    /// Those of the other records that claim it, in lent order.
    pub others: &'a [u8],
}

/// All names that records claim, in the order in which they are first claimed.
#[derive(Clone, Debug, PartialEq, Eq)]
pub struct Contest {
    rows: Vec<u8>,
    names: usize,
}

impl Contest {
    /// How many names are claimed.
    pub fn len(&self) -> usize {
        self.names
    }

    pub fn is_empty(&self) -> bool {
        self.names == 0
    }

    pub fn names(&self) -> Names<'_> {
        Names { rest: &self.rows }
    }
}

impl<'a> IntoIterator for &'a Contest {
    type Item = Held<'a>;
    type IntoIter = Names<'a>;

    fn into_iter(self) -> Names<'a> {
        self.names()
    }
}

/// The names of a contest, one by one.
#[derive(Clone, Debug)]
pub struct Names<'a> {
    rest: &'a [u8],
}

impl<'a> Iterator for Names<'a> {
    type Item = Held<'a>;

    fn next(&mut self) -> Option<Held<'a>> {
        let (&[name, holder, others], rest) = self.rest.split_first_chunk()?;
        let (name, rest) = rest.split_at_checked(name.into())?;
        let (others, rest) = rest.split_at_checked(others.into())?;
        self.rest = rest;
        Some(Held {
            name,
            holder,
            others,
        })
    }
}

/// For every claimed link the record that holds it: the claimant with the highest link priority,
/// and of equals the earliest.
pub fn contest(records: &[RecordPair]) -> Result<Contest, RefusedSet> {
    let set = lent_records(records).ok_or(RefusedSet::NO_SET)?;
    let mut target = vec![0; sizes::CONTEST_ROOM];
    let mut answer = Answer::default();
    calls::contest(&set, &mut target, &mut answer);
    accepted_set(&answer)?;
    target.truncate(answer[calls::USED] as usize);
    Ok(Contest {
        rows: target,
        names: answer[calls::COUNT] as usize,
    })
}
