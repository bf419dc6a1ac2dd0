//! Rules that give devices the links that are wanted for them.

use crate::calls::{self, Answer};
use crate::set::{lent, put_long, put_short};
use crate::{accepted_set, sizes, RefusedSet};

/// A device record, and the link that its device is to have.
#[derive(Clone, Copy, Debug, PartialEq, Eq)]
pub struct Wanted<'a> {
    pub device: &'a [u8],
    pub link: &'a [u8],
}

/// Whether a rules text names up to [`sizes::WANTED_MOST`] devices as wanted: run for each from its
/// fresh record, with the empty sheet, it is not refused and leaves the wanted link and no other.
pub fn plan_check(wanted: &[Wanted], text: &[u8]) -> Result<bool, RefusedSet> {
    let set = lent_set(wanted)?;
    let mut answer = Answer::default();
    calls::plan_check(&set, text, &mut answer);
    accepted_set(&answer)?;
    Ok(answer[calls::COUNT] == 1)
}

/// A rules text that [`plan_check`] accepts for the same devices. There is one exactly if all links
/// differ, are clean and sound names, and all event paths differ and have at most 128 bytes, each a
/// letter, a digit or one of `/:._-`.
pub fn plan(wanted: &[Wanted]) -> Result<Option<Vec<u8>>, RefusedSet> {
    let set = lent_set(wanted)?;
    let mut target = vec![0; sizes::TEXT_MOST];
    let mut answer = Answer::default();
    calls::plan(&set, &mut target, &mut answer);
    accepted_set(&answer)?;
    target.truncate(answer[calls::USED] as usize);
    Ok((answer[calls::COUNT] == 1).then_some(target))
}

fn lent_set(wanted: &[Wanted]) -> Result<Vec<u8>, RefusedSet> {
    let put = |set: &mut Vec<u8>, wanted: &Wanted| {
        put_long(set, wanted.device)?;
        put_short(set, wanted.link)
    };
    lent(wanted, put).ok_or(RefusedSet::NO_SET)
}
