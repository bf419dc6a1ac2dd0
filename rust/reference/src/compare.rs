//! Compares two engines byte for byte over generated cases.

use std::fmt;
use std::ops::Range;

use crate::claims::broken_claim;
use crate::extra_replies::extra_replies;
use crate::generate::{self, Case};
use crate::joined;
use crate::request::Written;
pub use crate::request::{AnswerArray, Engine, Reference, Request};
use crate::sizes;

#[derive(Clone, Copy, Debug, PartialEq, Eq, PartialOrd, Ord)]
pub enum Operation {
    Check,
    Fresh,
    Run,
    Close,
    /// The close of the record that the run has left.
    CloseAfterRun,
    Contest,
    RunFiles,
    /// With the files in another order.
    RunFilesPermuted,
    RunEach,
    PlanCheck,
    Plan,
    /// Of the engine's plan.
    PlanCheckOwn,
    /// Of the reference's plan, by the engine.
    PlanCheckReference,
    /// Of the engine's plan, by the reference.
    PlanCheckByReference,
    Newer,
    OlderAfterNewer,
    Older,
    NewerAfterOlder,
    Write,
    /// Of the text that was written.
    WriteAgain,
    Strike,
    /// Of what a strike has left.
    StrikeAgain,
    CheckStruck,
}

/// What an operation gave: its answer and all that it wrote to.
#[derive(Clone, Debug, PartialEq, Eq)]
pub struct Reply {
    pub operation: Operation,
    pub answer: AnswerArray,
    pub written: Written,
}

impl Reply {
    pub fn number(&self) -> u32 {
        self.answer[0]
    }

    pub fn line(&self) -> u32 {
        self.answer[1]
    }

    pub fn visited(&self) -> u32 {
        self.answer[2]
    }

    pub fn tried(&self) -> u32 {
        self.answer[4]
    }

    /// Whether two engines may give these replies. A plan is free: what is asked of it is said
    /// by the checks that follow it.
    fn agrees_with(&self, other: &Reply) -> bool {
        let both_plan = [self, other]
            .into_iter()
            .all(|reply| reply.operation == Operation::Plan && reply.count() == 1);
        if !both_plan {
            return self == other;
        }
        let without_used = |reply: &Reply| {
            let mut answer = reply.answer;
            answer[3] = 0;
            answer
        };
        without_used(self) == without_used(other)
            && self.written.target.len() == other.written.target.len()
            && self.is_zero_past_record()
            && other.is_zero_past_record()
    }

    fn is_zero_past_record(&self) -> bool {
        let used = self.answer[3] as usize;
        let rest = self.written.target.get(used..);
        rest.is_some_and(|rest| rest.iter().all(|&byte| byte == 0))
    }

    pub fn position(&self) -> u32 {
        self.answer[5]
    }

    pub fn count(&self) -> u32 {
        self.answer[6]
    }

    /// The struck lines, each with its fault.
    pub fn strikes(&self) -> impl Iterator<Item = &[u16]> {
        let entries = self.written.strikes.chunks_exact(2);
        entries.take(self.count() as usize)
    }

    /// The answers for the records of a set.
    pub fn answers(&self) -> impl Iterator<Item = &[u32]> {
        let answers = self.written.answers.chunks_exact(sizes::ANSWER);
        answers.take(self.count() as usize)
    }

    /// The target, cut at the used length.
    pub fn record(&self) -> &[u8] {
        let used = self.answer[3] as usize;
        &self.written.target[..used.min(self.written.target.len())]
    }
}

pub fn reply(
    engine: &dyn Engine,
    operation: Operation,
    request: &Request,
    mut written: Written,
) -> Reply {
    let answer = engine.answer(request, &mut written);
    Reply {
        operation,
        answer,
        written,
    }
}

pub fn run_reply(
    engine: &dyn Engine,
    text: &[u8],
    device: &[u8],
    outcome: &[u8],
    sheet: &[u8],
    room: usize,
) -> Reply {
    let request = Request::Run {
        text,
        device,
        outcome,
        sheet,
    };
    reply(engine, Operation::Run, &request, Written::with_target(room))
}

pub fn check_reply(engine: &dyn Engine, text: &[u8]) -> Reply {
    reply(
        engine,
        Operation::Check,
        &Request::Check { text },
        Written::default(),
    )
}

/// What an engine gives for all operations of a case, the check first.
pub fn replies(engine: &dyn Engine, case: &Case) -> Vec<Reply> {
    let Case {
        text,
        device,
        outcome,
        sheet,
        rooms,
        ..
    } = case;
    let close_of = |operation, outcome| {
        let request = Request::Close { device, outcome };
        reply(
            engine,
            operation,
            &request,
            Written::with_target(rooms.close),
        )
    };
    let run = run_reply(engine, text, device, outcome, sheet, rooms.run);
    let mut replies = vec![
        check_reply(engine, text),
        reply(
            engine,
            Operation::Fresh,
            &Request::Fresh { device },
            Written::with_target(rooms.fresh),
        ),
        close_of(Operation::Close, outcome),
    ];
    if run.number() == 0 {
        replies.push(close_of(Operation::CloseAfterRun, run.record()));
    }
    replies.insert(2, run);
    replies.extend(extra_replies(engine, case));
    replies
}

/// The number of the first refusal of fresh, run, the close after it, and what else is asked
/// for; 0 without one.
pub fn first_number(replies: &[Reply]) -> u32 {
    let apart = [Operation::Check, Operation::Close];
    replies
        .iter()
        .filter(|reply| !apart.contains(&reply.operation))
        .map(Reply::number)
        .find(|&number| number != 0)
        .unwrap_or(0)
}

#[derive(Clone, Debug, PartialEq, Eq)]
pub struct Difference {
    pub operation: Operation,
    pub left: AnswerArray,
    pub right: AnswerArray,
    /// Where what they wrote differs first.
    pub place: Option<String>,
}

impl fmt::Display for Difference {
    fn fmt(&self, f: &mut fmt::Formatter) -> fmt::Result {
        write!(
            f,
            "{:?}: left {:?}, right {:?}",
            self.operation, self.left, self.right
        )?;
        match &self.place {
            Some(place) => write!(f, ", {place}"),
            None => write!(f, ", what is written is equal"),
        }
    }
}

/// The first difference in what two engines gave.
pub fn first_difference(left: &[Reply], right: &[Reply]) -> Option<Difference> {
    let mut both = left.iter().zip(right);
    let (left, right) = both.find(|(left, right)| !left.agrees_with(right))?;
    Some(Difference {
        operation: left.operation,
        left: left.answer,
        right: right.answer,
        place: left.written.first_difference(&right.written),
    })
}

/// What both engines give for a case. If the second one checks the text otherwise, it is not
/// asked for more: with rules that should be refused, it might not come back.
pub fn replies_of_both(
    left: &dyn Engine,
    right: &dyn Engine,
    case: &Case,
) -> (Vec<Reply>, Vec<Reply>) {
    let of_left = replies(left, case);
    let check = check_reply(right, &case.text);
    if of_left.contains(&check) {
        (of_left, replies(right, case))
    } else {
        (of_left, vec![check])
    }
}

/// Something that went differently than it should.
#[derive(Clone, Debug)]
pub struct Finding {
    pub seed: u64,
    pub case: Case,
    pub message: String,
}

/// Compares the engines on the cases of the seeds, looks whether the right one keeps the claims
/// about several answers, and gives the first findings. `see` is
/// shown every case with what the left engine gave.
pub fn compare_cases(
    left: &dyn Engine,
    right: &dyn Engine,
    seeds: Range<u64>,
    limit: usize,
    mut see: impl FnMut(&Case, &[Reply]),
) -> Vec<Finding> {
    let mut findings = Vec::new();
    for seed in seeds {
        let case = generate::case(seed);
        let (of_left, of_right) = replies_of_both(left, right, &case);
        see(&case, &of_left);
        let difference = first_difference(&of_left, &of_right);
        let message = difference
            .map(|difference| difference.to_string())
            .or_else(|| broken_claim(right, &case, &of_right));
        if let Some(message) = message {
            findings.push(Finding {
                seed,
                case,
                message,
            });
            if findings.len() == limit {
                break;
            }
        }
    }
    findings
}

/// Compares the engines on the join lists and cut texts of the seeds, and looks whether both
/// keep what document 01 says of joined texts.
pub fn compare_joins(
    left: &dyn Engine,
    right: &dyn Engine,
    seeds: Range<u64>,
    limit: usize,
) -> Vec<Finding> {
    let findings = seeds.flat_map(|seed| {
        let list = generate::joins::join_list(seed);
        let cut_text = generate::joins::cut_text(seed);
        let mut findings = Vec::new();
        for case in joined::cases_of(left, &list) {
            let (of_left, of_right) = replies_of_both(left, right, &case);
            let difference = first_difference(&of_left, &of_right);
            findings.extend(difference.map(|difference| (case, difference.to_string())));
        }
        for engine in [left, right] {
            let broken = joined::check_list(engine, &list).err();
            findings.extend(broken.map(|message| (joined::case_of_join(&list), message)));
            let broken = joined::check_cuts(engine, &cut_text).err();
            findings.extend(broken.map(|message| (joined::case_of_cuts(&cut_text), message)));
        }
        let finding = move |(case, message)| Finding {
            seed,
            case,
            message,
        };
        findings.into_iter().map(finding)
    });
    findings.take(limit).collect()
}
