//! Rules files of several directories run as one set.

use crate::calls::{self, Answer};
use crate::set::{lent, put_long, put_short};
use crate::{refused, sizes, Ran, Refusal, Refused, RefusedFile};

/// The directory that a rules file stands in, the highest rank first.
#[derive(Clone, Copy, Debug, PartialEq, Eq, PartialOrd, Ord)]
#[repr(u8)]
pub enum Rank {
    Etc = 0,
    Run = 1,
    UsrLocalLib = 2,
    Lib = 3,
}

/// A rules file of a set.
#[derive(Clone, Copy, Debug, PartialEq, Eq)]
pub struct RulesFile<'a> {
    pub rank: Rank,
    /// Its name without the directory.
    pub name: &'a [u8],
    pub text: &'a [u8],
}

/// Runs rules files for a device, from an outcome record to the next one: those whose names end in
/// `.rules`, of one name only that of the highest rank, in the byte order of their names.
pub fn run_files(
    files: &[RulesFile],
    device: &[u8],
    outcome: &[u8],
    sheet: &[u8],
) -> Result<Ran, RefusedFile> {
    let set = lent(files, put).ok_or(Refused {
        refusal: Refusal::SetBad,
        line: 0,
    })?;
    let mut target = vec![0; sizes::OUTCOME_ROOM];
    let mut answer = Answer::default();
    calls::run_files(&set, device, outcome, sheet, &mut target, &mut answer);
    match answer[calls::NUMBER] {
        0 => {
            target.truncate(answer[calls::USED] as usize);
            Ok(Ran::of(&answer, target))
        }
        number => Err(RefusedFile {
            refused: refused(number, answer[calls::LINE]),
            position: answer[calls::POSITION],
        }),
    }
}

fn put(set: &mut Vec<u8>, file: &RulesFile) -> Option<()> {
    set.push(file.rank as u8);
    put_short(set, file.name)?;
    put_long(set, file.text)
}
