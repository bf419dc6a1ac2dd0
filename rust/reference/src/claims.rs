//! What the papers say of several answers together, checked of an engine's replies for a case.

use crate::compare::{check_reply, run_reply, Engine, Operation, Reply};
use crate::file_set::{FileSet, RulesFile};
use crate::generate::joins::JoinList;
use crate::generate::{Case, Extra};
use crate::joined::runs_in_a_row;
use crate::record_set::{RecordPair, RecordSet};
use crate::sizes;

/// What does not hold of the replies, if anything.
pub fn broken_claim(engine: &dyn Engine, case: &Case, replies: &[Reply]) -> Option<String> {
    match &case.extra {
        Extra::RunFiles { set, permuted, .. } => {
            let of = |operation| replies.iter().find(|reply| reply.operation == operation);
            let run = of(Operation::RunFiles)?;
            let other = of(Operation::RunFilesPermuted)?;
            let (set, permuted) = (FileSet::decode(set)?, FileSet::decode(permuted)?);
            order_matters(&set, run, &permuted, other)
                .or_else(|| differs_from_runs_in_a_row(engine, case, &set, run))
        }
        Extra::RunEach { set, .. } => {
            let set = RecordSet::decode(set)?;
            let each = replies.last()?;
            (each.number() == 0).then(|| differs_from_single_runs(engine, case, &set, each))?
        }
        _ => None,
    }
}

/// Each record has what a run with it alone gives.
fn differs_from_single_runs(
    engine: &dyn Engine,
    case: &Case,
    set: &RecordSet,
    each: &Reply,
) -> Option<String> {
    let targets = each.written.target.chunks(sizes::OUTCOME_TARGET);
    let answers = each.written.answers.chunks(sizes::ANSWER);
    let mut written = set.entries.iter().zip(targets.zip(answers));
    written.find_map(|(RecordPair { device, outcome }, (target, answer))| {
        let room = sizes::OUTCOME_TARGET;
        let run = run_reply(engine, &case.text, device, outcome, &case.sheet, room);
        let is_same = run.answer == answer && run.written.target == target;
        (!is_same).then(|| format!("a record is answered {answer:?}, alone {:?}", run.answer))
    })
}

/// The order in which files are lent shows in nothing but their positions.
fn order_matters(set: &FileSet, run: &Reply, permuted: &FileSet, other: &Reply) -> Option<String> {
    if !is_permutation(set, permuted) {
        return None;
    }
    let name = |set: &FileSet, reply: &Reply| {
        let place = reply.position().checked_sub(1)?;
        set.files.get(place as usize).map(|file| file.name.clone())
    };
    let without_position = |reply: &Reply| {
        let mut answer = reply.answer;
        answer[5] = 0;
        answer
    };
    let is_same = without_position(run) == without_position(other)
        && name(set, run) == name(permuted, other)
        && run.written == other.written;
    (!is_same).then(|| {
        format!(
            "the files give {:?}, in another order {:?}",
            run.answer, other.answer
        )
    })
}

fn is_permutation(set: &FileSet, other: &FileSet) -> bool {
    let count = |set: &FileSet, file: &RulesFile| set.files.iter().filter(|&f| f == file).count();
    set.files.len() == other.files.len()
        && set
            .files
            .iter()
            .all(|file| count(set, file) == count(other, file))
}

/// Accepted texts run as they would one after another.
fn differs_from_runs_in_a_row(
    engine: &dyn Engine,
    case: &Case,
    set: &FileSet,
    of_files: &Reply,
) -> Option<String> {
    let winners = set.winners();
    let list = JoinList {
        texts: winners
            .iter()
            .map(|winner| winner.file.text.clone())
            .collect(),
        device: case.device.clone(),
        outcome: case.outcome.clone(),
        sheet: case.sheet.clone(),
    };
    let is_accepted = |text: &Vec<u8>| check_reply(engine, text).number() == 0;
    let is_claimed = !set.has_equal_files()
        && list.texts.iter().all(is_accepted)
        && of_files.written.target.len() == sizes::OUTCOME_TARGET;
    if !is_claimed {
        return None;
    }
    let runs = runs_in_a_row(engine, &list);
    let mut expected = runs.last()?.clone();
    if expected.number() == 0 {
        expected.answer[2] = runs.iter().map(Reply::visited).sum();
        expected.answer[4] = runs.iter().map(Reply::tried).sum();
    } else if expected.line() > 0 {
        // What is refused without a line is a record or the sheet, and no file.
        expected.answer[5] = winners[runs.len() - 1].position;
    }
    let is_same = of_files.answer == expected.answer && of_files.written == expected.written;
    (!is_same).then(|| {
        format!(
            "the files give {:?}, one after another {:?}",
            of_files.answer, expected.answer
        )
    })
}
