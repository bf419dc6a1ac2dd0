//! Safe bindings of the proved udev rules engine: a function an operation, with typed answers.
//!
//! The C functions of `include/spillfinch.h` are declared here and nowhere else.

pub mod calls;
mod contest;
mod plan;
mod record_set;
mod refusal;
mod rules_files;
mod run_each;
mod set;
pub mod sizes;

pub use contest::{contest, Contest, Held, Names};
pub use plan::{plan, plan_check, Wanted};
pub use record_set::RecordPair;
pub use refusal::{Refusal, Refused, RefusedFile, RefusedSet};
pub use rules_files::{run_files, Rank, RulesFile};
pub use run_each::{run_each, RunEach};

use calls::Answer;

/// The packed answer sheet without replies.
pub const EMPTY_SHEET: &[u8] = &[0];

/// What a run leaves.
#[derive(Clone, Debug, PartialEq, Eq)]
pub struct Ran {
    /// How many rules had their matching begun.
    pub visited: u32,
    /// How many devices were tried for the parent keys of its rules.
    pub tried: u32,
    /// The outcome record.
    pub record: Vec<u8>,
}

impl Ran {
    /// By the answer of its run.
    fn of(answer: &Answer, record: Vec<u8>) -> Ran {
        Ran {
            visited: answer[calls::VISITED],
            tried: answer[calls::TRIED],
            record,
        }
    }
}

/// What is left of a text without its faulty lines.
#[derive(Clone, Debug, PartialEq, Eq)]
pub struct Struck {
    /// The text; of a struck line its newlines are left.
    pub text: Vec<u8>,
    /// Each line that was struck, and why, by line.
    pub strikes: Vec<Refused>,
}

/// Reads a rules text without a device; the refusal is that of its first fault.
pub fn check(text: &[u8]) -> Result<(), Refused> {
    let mut answer = Answer::default();
    calls::check(text, &mut answer);
    accepted(&answer)
}

/// The outcome record that a device starts with.
pub fn fresh(device: &[u8]) -> Result<Vec<u8>, Refused> {
    let (_, record) = written(sizes::OUTCOME_ROOM, |target, answer| {
        calls::fresh(device, target, answer);
    })?;
    Ok(record)
}

/// Runs a rules text for a device, from an outcome record to the next one. What its PROGRAM keys
/// ask is looked up on the answer sheet.
pub fn run(text: &[u8], device: &[u8], outcome: &[u8], sheet: &[u8]) -> Result<Ran, Refused> {
    let (answer, record) = written(sizes::OUTCOME_ROOM, |target, answer| {
        calls::run(text, device, outcome, sheet, target, answer);
    })?;
    Ok(Ran::of(&answer, record))
}

/// The run list of an outcome record.
pub fn close(device: &[u8], outcome: &[u8]) -> Result<Vec<u8>, Refused> {
    let (_, list) = written(sizes::RUN_LIST_ROOM, |target, answer| {
        calls::close(device, outcome, target, answer);
    })?;
    Ok(list)
}

/// An outcome record of edition 1 as one of edition 2.
pub fn newer(device: &[u8], outcome: &[u8]) -> Result<Vec<u8>, Refused> {
    let (_, record) = written(sizes::OUTCOME_ROOM, |target, answer| {
        calls::newer(device, outcome, target, answer);
    })?;
    Ok(record)
}

/// An outcome record of edition 2 as one of edition 1.
pub fn older(device: &[u8], outcome: &[u8]) -> Result<Vec<u8>, Refused> {
    let (_, record) = written(sizes::OLD_OUTCOME_ROOM, |target, answer| {
        calls::older(device, outcome, target, answer);
    })?;
    Ok(record)
}

/// The rules of a text written back: a line for each, nothing between their parts.
pub fn write(text: &[u8]) -> Result<Vec<u8>, Refused> {
    let (_, text) = written(sizes::TEXT_MOST, |target, answer| {
        calls::write(text, target, answer);
    })?;
    Ok(text)
}

/// A text without the lines that have faults. What is left is accepted; only a text over
/// [`sizes::TEXT_MOST`] is refused.
pub fn strike(text: &[u8]) -> Result<Struck, Refused> {
    let mut list = vec![0; sizes::STRIKES_ROOM];
    let (answer, text) = written(sizes::TEXT_MOST, |target, answer| {
        calls::strike(text, target, &mut list, answer);
    })?;
    let strikes = list.chunks_exact(2).take(answer[calls::COUNT] as usize);
    let strikes = strikes
        .map(|strike| refused(u32::from(strike[1]), u32::from(strike[0])))
        .collect();
    Ok(Struck { text, strikes })
}

fn accepted(answer: &Answer) -> Result<(), Refused> {
    match answer[calls::NUMBER] {
        0 => Ok(()),
        number => Err(refused(number, answer[calls::LINE])),
    }
}

fn accepted_set(answer: &Answer) -> Result<(), RefusedSet> {
    accepted(answer).map_err(|refused| RefusedSet {
        refusal: refused.refusal,
        position: answer[calls::POSITION],
    })
}

fn refused(number: u32, line: u32) -> Refused {
    Refused {
        refusal: Refusal::of_number(number).expect("the header names every number"),
        line,
    }
}

/// The answer of a call and what it wrote, cut at its length.
fn written(
    room: usize,
    call: impl FnOnce(&mut [u8], &mut Answer),
) -> Result<(Answer, Vec<u8>), Refused> {
    let mut target = vec![0; room];
    let mut answer = Answer::default();
    call(&mut target, &mut answer);
    accepted(&answer)?;
    target.truncate(answer[calls::USED] as usize);
    Ok((answer, target))
}
