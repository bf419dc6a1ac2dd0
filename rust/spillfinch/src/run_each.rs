//! One rules text for many devices.

use std::vec;

use crate::calls::{self, Answer};
use crate::record_set::{lent_records, RecordPair};
use crate::{accepted, run, sizes, Ran, Refused};

/// Runs a rules text for each of many devices, from its outcome record, all with one answer sheet:
/// what [`run`] gives for each, in their order, with the text read once for every
/// [`sizes::RECORDS_MOST`] of them.
pub fn run_each<'a, I>(text: &'a [u8], records: I, sheet: &'a [u8]) -> RunEach<'a, I::IntoIter>
where
    I: IntoIterator<Item = RecordPair<'a>>,
{
    RunEach {
        text,
        sheet,
        records: records.into_iter(),
        ran: Vec::new().into_iter(),
    }
}

/// The runs of a text, one for each device.
#[derive(Clone, Debug)]
pub struct RunEach<'a, I> {
    text: &'a [u8],
    sheet: &'a [u8],
    /// Those that have not run.
    records: I,
    /// What has run and is not given yet.
    ran: vec::IntoIter<Result<Ran, Refused>>,
}

impl<'a, I> Iterator for RunEach<'a, I>
where
    I: Iterator<Item = RecordPair<'a>>,
{
    type Item = Result<Ran, Refused>;

    fn next(&mut self) -> Option<Result<Ran, Refused>> {
        if self.ran.len() == 0 {
            let group: Vec<RecordPair> = self.records.by_ref().take(sizes::RECORDS_MOST).collect();
            self.ran = run_group(self.text, &group, self.sheet).into_iter();
        }
        self.ran.next()
    }
}

/// At most as many records as a set may have.
fn run_group(text: &[u8], group: &[RecordPair], sheet: &[u8]) -> Vec<Result<Ran, Refused>> {
    let Some(set) = lent_records(group) else {
        // One of them is longer than a set can say.
        let alone = |pair: &RecordPair| run(text, pair.device, pair.outcome, sheet);
        return group.iter().map(alone).collect();
    };
    let mut targets = vec![0; group.len() * sizes::OUTCOME_ROOM];
    let mut answers = vec![Answer::default(); group.len()];
    let mut answer = Answer::default();
    calls::run_each(
        text,
        &set,
        sheet,
        &mut targets,
        answers.as_flattened_mut(),
        &mut answer,
    );
    accepted(&answer).expect("a set with room for all");
    let targets = targets.chunks_exact(sizes::OUTCOME_ROOM);
    let ran = |(answer, target): (&Answer, &[u8])| {
        accepted(answer)?;
        let record = &target[..answer[calls::USED] as usize];
        Ok(Ran::of(answer, record.to_vec()))
    };
    answers.iter().zip(targets).map(ran).collect()
}
