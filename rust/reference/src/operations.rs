//! The operations on packed records, with the numbers that they give back.

use crate::contest::{self, Contested};
use crate::device::Device;
use crate::engine::Runner;
use crate::file_set::{FileSet, Winner};
use crate::outcome::{Edition, Outcome};
use crate::plan::{self, Naming};
use crate::record_set::{RecordPair, RecordSet};
use crate::refusal::{Fault, Refusal};
use crate::request::AnswerArray;
use crate::rules;
use crate::run_list::RunList;
use crate::sheet::Sheet;
use crate::sizes;
use crate::strike::{self, Struck};
use crate::wanted_set::{Wanted, WantedSet};
use crate::writer;

#[derive(Clone, Copy, Debug, Default, PartialEq, Eq)]
pub struct Answer {
    pub number: u32,
    pub line: u32,
    pub visited: u32,
    pub used: u32,
    pub tried: u32,
    /// Of the record or file of a set that is refused, from 1; 0 for none.
    pub position: u32,
    /// Of the entries that were made; what they are is the operation's.
    pub count: u32,
}

impl From<Refusal> for Answer {
    fn from(refusal: Refusal) -> Answer {
        Answer {
            number: refusal.fault.number(),
            line: refusal.line,
            position: refusal.position,
            ..Answer::default()
        }
    }
}

#[derive(Default)]
struct Accepted {
    visited: u32,
    tried: u32,
    count: u32,
    record: Vec<u8>,
}

/// Whether a rules text is accepted.
pub fn check(text: &[u8]) -> Answer {
    match rules::read(text) {
        Ok(_) => Answer::default(),
        Err(refusal) => refusal.into(),
    }
}

/// Writes the fresh outcome record of a device.
pub fn fresh(device: &[u8], target: &mut [u8]) -> Answer {
    let result = make_fresh(device, target.len());
    deliver(result, target)
}

/// Runs the rules of a text, with an answer sheet for the programs that they ask, and writes the
/// outcome record that they leave.
pub fn run(text: &[u8], device: &[u8], outcome: &[u8], sheet: &[u8], target: &mut [u8]) -> Answer {
    let result = make_run(text, device, outcome, sheet, target.len());
    deliver(result, target)
}

/// Runs the rules of the files that count in a set, and writes the outcome record that they leave.
pub fn run_files(
    set: &[u8],
    device: &[u8],
    outcome: &[u8],
    sheet: &[u8],
    target: &mut [u8],
) -> Answer {
    let result = make_run_files(set, device, outcome, sheet, target.len());
    deliver(result, target)
}

/// Runs the rules of a text for each record of a set, and writes for each what a run would: the
/// record to targets, the numbers to answers.
pub fn run_each(
    text: &[u8],
    set: &[u8],
    sheet: &[u8],
    targets: &mut [u8],
    answers: &mut [u32],
) -> Answer {
    targets.fill(0);
    answers.fill(0);
    let records = match decode_set_for(set, targets.len(), answers.len()) {
        Ok(set) => set.entries,
        Err(refusal) => return refusal.into(),
    };
    let targets = targets.chunks_exact_mut(sizes::OUTCOME_TARGET);
    let answers = answers.chunks_exact_mut(sizes::ANSWER);
    for (RecordPair { device, outcome }, (target, numbers)) in
        records.iter().zip(targets.zip(answers))
    {
        let answer = run(text, device, outcome, sheet, target);
        numbers.copy_from_slice(&AnswerArray::from(answer));
    }
    Answer {
        count: records.len() as u32,
        ..Answer::default()
    }
}

/// Writes the run list of an outcome.
pub fn close(device: &[u8], outcome: &[u8], target: &mut [u8]) -> Answer {
    let result = make_close(device, outcome, target.len());
    deliver(result, target)
}

/// Writes the holder of each link that the records of a set claim, with the other claimants.
pub fn contest(set: &[u8], target: &mut [u8]) -> Answer {
    let result = make_contest(set, target.len());
    deliver(result, target)
}

/// Whether a text is a plan for the devices of a set; the count is then 1.
pub fn plan_check(set: &[u8], text: &[u8]) -> Answer {
    match decode_namings(set) {
        Ok(namings) => Answer {
            count: u32::from(plan::is_plan(text, &namings)),
            ..Answer::default()
        },
        Err(refusal) => refusal.into(),
    }
}

/// Writes a plan for the devices of a set, and counts 1 if there is one.
pub fn plan(set: &[u8], target: &mut [u8]) -> Answer {
    let result = make_plan(set, target.len());
    deliver(result, target)
}

/// Writes the rules of a text back.
pub fn write(text: &[u8], target: &mut [u8]) -> Answer {
    let result = make_text(text, target.len());
    deliver(result, target)
}

/// Writes the text without the lines for which it would be refused, and the list of these lines:
/// two numbers for each, the line and the fault.
pub fn strike(text: &[u8], target: &mut [u8], strikes: &mut [u16]) -> Answer {
    let result = make_struck(text, target.len(), strikes.len());
    strikes.fill(0);
    let list = result.iter().flat_map(|struck| &struck.strikes);
    for (entry, strike) in strikes.chunks_exact_mut(2).zip(list) {
        entry[0] = u16::try_from(strike.line).expect("a text has fewer lines");
        entry[1] = strike.fault.number() as u16;
    }
    let result = result.map(|struck| Accepted {
        count: struck.strikes.len() as u32,
        record: struck.text,
        ..Accepted::default()
    });
    deliver(result, target)
}

/// Writes an outcome record of edition 1 in edition 2.
pub fn newer(device: &[u8], outcome: &[u8], target: &mut [u8]) -> Answer {
    let result = make_newer(device, outcome, target.len());
    deliver(result, target)
}

/// Writes an outcome record of edition 2 in edition 1.
pub fn older(device: &[u8], outcome: &[u8], target: &mut [u8]) -> Answer {
    let result = make_older(device, outcome, target.len());
    deliver(result, target)
}

fn deliver(result: Result<Accepted, Refusal>, target: &mut [u8]) -> Answer {
    target.fill(0);
    match result {
        Ok(accepted) => {
            let record = &accepted.record;
            target[..record.len()].copy_from_slice(record);
            Answer {
                visited: accepted.visited,
                tried: accepted.tried,
                count: accepted.count,
                used: record.len() as u32,
                ..Answer::default()
            }
        }
        Err(refusal) => refusal.into(),
    }
}

fn make_fresh(device: &[u8], room: usize) -> Result<Accepted, Refusal> {
    check_room(room, sizes::OUTCOME_TARGET)?;
    let device = decode_device(device)?;
    Ok(Accepted {
        record: Outcome::fresh(&device).encode(),
        ..Accepted::default()
    })
}

fn make_run(
    text: &[u8],
    device: &[u8],
    outcome: &[u8],
    sheet: &[u8],
    room: usize,
) -> Result<Accepted, Refusal> {
    check_room(room, sizes::OUTCOME_TARGET)?;
    let rules = rules::read(text)?;
    let device = decode_device(device)?;
    let outcome = decode_outcome(outcome, &device)?;
    let sheet = decode_sheet(sheet)?;
    let finished = Runner::new(&rules, &device, &sheet, outcome).finish()?;
    Ok(Accepted {
        visited: finished.visited,
        tried: finished.tried,
        record: finished.outcome.encode(),
        ..Accepted::default()
    })
}

fn make_run_files(
    set: &[u8],
    device: &[u8],
    outcome: &[u8],
    sheet: &[u8],
    room: usize,
) -> Result<Accepted, Refusal> {
    check_room(room, sizes::OUTCOME_TARGET)?;
    let set = FileSet::decode(set).ok_or(Fault::Set.without_line())?;
    if set.has_equal_files() {
        return Err(Fault::EqualFiles.without_line());
    }
    let mut texts = Vec::new();
    for Winner { position, file } in set.winners() {
        let rules = rules::read(&file.text);
        texts.push((
            position,
            rules.map_err(|refusal| refusal.at_position(position))?,
        ));
    }
    let device = decode_device(device)?;
    let mut outcome = decode_outcome(outcome, &device)?;
    let sheet = decode_sheet(sheet)?;
    let (mut visited, mut tried) = (0, 0);
    for (position, rules) in &texts {
        let finished = Runner::new(rules, &device, &sheet, outcome)
            .finish()
            .map_err(|refusal| refusal.at_position(*position))?;
        visited += finished.visited;
        tried += finished.tried;
        outcome = finished.outcome;
    }
    Ok(Accepted {
        visited,
        tried,
        record: outcome.encode(),
        ..Accepted::default()
    })
}

fn make_close(device: &[u8], outcome: &[u8], room: usize) -> Result<Accepted, Refusal> {
    check_room(room, sizes::RUN_LIST_TARGET)?;
    let device = decode_device(device)?;
    let outcome = decode_outcome(outcome, &device)?;
    let run_list = make_run_list(&outcome, &device)?;
    Ok(Accepted {
        record: run_list.encode(),
        ..Accepted::default()
    })
}

fn make_contest(set: &[u8], room: usize) -> Result<Accepted, Refusal> {
    check_room(room, sizes::CONTEST_TARGET)?;
    let outcomes: Vec<Outcome> = (1..)
        .zip(decode_set(set)?.entries)
        .map(|(position, records)| {
            let outcome = decode_records(&records);
            outcome.map_err(|refusal| refusal.at_position(position))
        })
        .collect::<Result<_, _>>()?;
    let list: Vec<Contested> = contest::contest(&outcomes);
    Ok(Accepted {
        count: list.len() as u32,
        record: contest::encode(&list),
        ..Accepted::default()
    })
}

fn decode_set(set: &[u8]) -> Result<RecordSet, Refusal> {
    RecordSet::decode(set).ok_or(Fault::Set.without_line())
}

/// The set, if there is room for a run of each of its records.
fn decode_set_for(set: &[u8], targets: usize, answers: usize) -> Result<RecordSet, Refusal> {
    let set = decode_set(set)?;
    check_room(targets, set.entries.len() * sizes::OUTCOME_TARGET)?;
    check_room(answers, set.entries.len() * sizes::ANSWER)?;
    Ok(set)
}

fn decode_records(records: &RecordPair) -> Result<Outcome, Refusal> {
    let device = decode_device(&records.device)?;
    decode_outcome(&records.outcome, &device)
}

fn make_plan(set: &[u8], room: usize) -> Result<Accepted, Refusal> {
    check_room(room, sizes::TEXT)?;
    let plan = plan::plan(&decode_namings(set)?);
    Ok(Accepted {
        count: u32::from(plan.is_some()),
        record: plan.unwrap_or_default(),
        ..Accepted::default()
    })
}

fn decode_namings(set: &[u8]) -> Result<Vec<Naming>, Refusal> {
    let set = WantedSet::decode(set).ok_or(Fault::Set.without_line())?;
    (1..)
        .zip(set.entries)
        .map(|(position, Wanted { device, link })| {
            let device = decode_device(&device);
            Ok(Naming {
                device: device.map_err(|refusal| refusal.at_position(position))?,
                link,
            })
        })
        .collect()
}

fn make_newer(device: &[u8], outcome: &[u8], room: usize) -> Result<Accepted, Refusal> {
    check_room(room, sizes::OUTCOME_TARGET)?;
    let device = decode_device(device)?;
    let outcome = decode_outcome_edition(Edition::First, outcome, &device)?;
    Ok(Accepted {
        record: outcome.encode_edition(Edition::Second),
        ..Accepted::default()
    })
}

fn make_older(device: &[u8], outcome: &[u8], room: usize) -> Result<Accepted, Refusal> {
    check_room(room, sizes::OLD_OUTCOME_TARGET)?;
    let device = decode_device(device)?;
    let outcome = decode_outcome_edition(Edition::Second, outcome, &device)?;
    if !outcome.fits_edition_1() {
        return Err(Fault::NotInEdition1.without_line());
    }
    Ok(Accepted {
        record: outcome.encode_edition(Edition::First),
        ..Accepted::default()
    })
}

fn make_text(text: &[u8], room: usize) -> Result<Accepted, Refusal> {
    check_room(room, sizes::TEXT)?;
    let written = writer::write(&rules::read(text)?);
    if written.len() > sizes::TEXT {
        return Err(Fault::Text.without_line());
    }
    Ok(Accepted {
        record: written,
        ..Accepted::default()
    })
}

fn make_struck(text: &[u8], room: usize, strikes_room: usize) -> Result<Struck, Refusal> {
    check_room(room, sizes::TEXT)?;
    check_room(strikes_room, 2 * sizes::STRIKES)?;
    if text.len() > sizes::TEXT {
        return Err(Fault::Text.without_line());
    }
    Ok(strike::strike(text))
}

fn check_room(room: usize, needed: usize) -> Result<(), Refusal> {
    if room < needed {
        return Err(Fault::Target.without_line());
    }
    Ok(())
}

pub fn decode_device(record: &[u8]) -> Result<Device, Refusal> {
    Device::decode(record).ok_or(Fault::DeviceRecord.without_line())
}

pub fn decode_outcome(record: &[u8], device: &Device) -> Result<Outcome, Refusal> {
    decode_outcome_edition(Edition::Second, record, device)
}

fn decode_outcome_edition(
    edition: Edition,
    record: &[u8],
    device: &Device,
) -> Result<Outcome, Refusal> {
    Outcome::decode_edition(edition, record, device.chain.len())
        .ok_or(Fault::OutcomeRecord.without_line())
}

pub fn decode_sheet(packed: &[u8]) -> Result<Sheet, Refusal> {
    Sheet::decode(packed).ok_or(Fault::Sheet.without_line())
}

pub fn make_run_list(outcome: &Outcome, device: &Device) -> Result<RunList, Refusal> {
    RunList::of(outcome, device).ok_or(Fault::Substituted.without_line())
}
