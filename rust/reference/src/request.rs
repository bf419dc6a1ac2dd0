//! What an engine is asked for, and the engine of this crate.

use crate::operations::{self, Answer};
use crate::sizes;

/// Number, line, visited, used, tried, position and count, then a zero.
pub type AnswerArray = [u32; sizes::ANSWER];

/// An operation with all that it is lent.
#[derive(Clone, Copy, Debug)]
pub enum Request<'a> {
    Check {
        text: &'a [u8],
    },
    Fresh {
        device: &'a [u8],
    },
    Run {
        text: &'a [u8],
        device: &'a [u8],
        outcome: &'a [u8],
        sheet: &'a [u8],
    },
    RunFiles {
        set: &'a [u8],
        device: &'a [u8],
        outcome: &'a [u8],
        sheet: &'a [u8],
    },
    RunEach {
        text: &'a [u8],
        set: &'a [u8],
        sheet: &'a [u8],
    },
    Close {
        device: &'a [u8],
        outcome: &'a [u8],
    },
    Contest {
        set: &'a [u8],
    },
    Write {
        text: &'a [u8],
    },
    Strike {
        text: &'a [u8],
    },
    PlanCheck {
        set: &'a [u8],
        text: &'a [u8],
    },
    Plan {
        set: &'a [u8],
    },
    Newer {
        device: &'a [u8],
        outcome: &'a [u8],
    },
    Older {
        device: &'a [u8],
        outcome: &'a [u8],
    },
}

/// What an operation writes to beside its answer.
#[derive(Clone, Debug, Default, PartialEq, Eq)]
pub struct Written {
    pub target: Vec<u8>,
    /// The list of struck lines, two numbers an entry.
    pub strikes: Vec<u16>,
    /// The answers for the records of a set.
    pub answers: Vec<u32>,
}

const UNWRITTEN: u8 = 0xAA;
const UNWRITTEN_STRIKE: u16 = 0xAAAA;
const UNWRITTEN_ANSWER: u32 = 0xAAAA_AAAA;

impl Written {
    /// A target of that length, of bytes that show where nothing is written.
    pub fn with_target(room: usize) -> Written {
        Written {
            target: vec![UNWRITTEN; room],
            ..Written::default()
        }
    }

    pub fn with_strikes(self, numbers: usize) -> Written {
        Written {
            strikes: vec![UNWRITTEN_STRIKE; numbers],
            ..self
        }
    }

    pub fn with_answers(self, numbers: usize) -> Written {
        Written {
            answers: vec![UNWRITTEN_ANSWER; numbers],
            ..self
        }
    }

    /// Where two of them differ first.
    pub fn first_difference(&self, other: &Written) -> Option<String> {
        let strikes = || {
            first_difference(&self.strikes, &other.strikes)
                .map(|number| format!("strikes differ from number {number}"))
        };
        let answers = || {
            first_difference(&self.answers, &other.answers)
                .map(|number| format!("answers differ from number {number}"))
        };
        first_difference(&self.target, &other.target)
            .map(|byte| format!("targets differ from byte {byte}"))
            .or_else(strikes)
            .or_else(answers)
    }
}

fn first_difference<T: PartialEq>(left: &[T], right: &[T]) -> Option<usize> {
    let mut both = left.iter().zip(right);
    both.position(|(left, right)| left != right)
}

pub trait Engine {
    fn answer(&self, request: &Request, written: &mut Written) -> AnswerArray;
}

/// The engine of this crate.
pub struct Reference;

impl Engine for Reference {
    fn answer(&self, request: &Request, written: &mut Written) -> AnswerArray {
        let Written {
            target,
            strikes,
            answers,
        } = written;
        let answer = match *request {
            Request::Check { text } => operations::check(text),
            Request::Fresh { device } => operations::fresh(device, target),
            Request::Run {
                text,
                device,
                outcome,
                sheet,
            } => operations::run(text, device, outcome, sheet, target),
            Request::RunFiles {
                set,
                device,
                outcome,
                sheet,
            } => operations::run_files(set, device, outcome, sheet, target),
            Request::RunEach { text, set, sheet } => {
                operations::run_each(text, set, sheet, target, answers)
            }
            Request::Close { device, outcome } => operations::close(device, outcome, target),
            Request::Contest { set } => operations::contest(set, target),
            Request::Write { text } => operations::write(text, target),
            Request::Strike { text } => operations::strike(text, target, strikes),
            Request::PlanCheck { set, text } => operations::plan_check(set, text),
            Request::Plan { set } => operations::plan(set, target),
            Request::Newer { device, outcome } => operations::newer(device, outcome, target),
            Request::Older { device, outcome } => operations::older(device, outcome, target),
        };
        answer.into()
    }
}

impl From<Answer> for AnswerArray {
    fn from(answer: Answer) -> AnswerArray {
        let Answer {
            number,
            line,
            visited,
            used,
            tried,
            position,
            count,
        } = answer;
        [number, line, visited, used, tried, position, count, 0]
    }
}
