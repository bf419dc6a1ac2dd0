//! The engine that is linked in through its bindings.

use reference::request::{AnswerArray, Engine, Request, Written};
use spillfinch::calls;

/// The linked engine.
pub struct Linked;

/// The linked engine, with all that it reads and writes in allocations of their own, none longer than it must be: a
/// tool that watches the heap sees a byte too far.
pub struct LinkedApart;

/// The answers start with other numbers, so that one that is not written shows.
const UNWRITTEN: AnswerArray = [0xAAAA_AAAA; 8];

impl Engine for Linked {
    fn answer(&self, request: &Request, written: &mut Written) -> AnswerArray {
        let mut answer = UNWRITTEN;
        call(request, written, &mut answer);
        answer
    }
}

fn call(request: &Request, written: &mut Written, answer: &mut AnswerArray) {
    let Written {
        target,
        strikes,
        answers,
    } = written;
    match *request {
        Request::Check { text } => calls::check(text, answer),
        Request::Fresh { device } => calls::fresh(device, target, answer),
        Request::Run {
            text,
            device,
            outcome,
            sheet,
        } => calls::run(text, device, outcome, sheet, target, answer),
        Request::RunFiles {
            set,
            device,
            outcome,
            sheet,
        } => calls::run_files(set, device, outcome, sheet, target, answer),
        Request::RunEach { text, set, sheet } => {
            calls::run_each(text, set, sheet, target, answers, answer);
        }
        Request::Close { device, outcome } => calls::close(device, outcome, target, answer),
        Request::Contest { set } => calls::contest(set, target, answer),
        Request::Write { text } => calls::write(text, target, answer),
        Request::Strike { text } => calls::strike(text, target, strikes, answer),
        Request::PlanCheck { set, text } => calls::plan_check(set, text, answer),
        Request::Plan { set } => calls::plan(set, target, answer),
        Request::Newer { device, outcome } => calls::newer(device, outcome, target, answer),
        Request::Older { device, outcome } => calls::older(device, outcome, target, answer),
    }
}

/// What is written to is in allocations of its own already.
impl Engine for LinkedApart {
    fn answer(&self, request: &Request, written: &mut Written) -> AnswerArray {
        let mut answer = Box::new(UNWRITTEN);
        let mut call = |request| call(&request, written, &mut answer);
        match *request {
            Request::Check { text } => call(Request::Check { text: &own(text) }),
            Request::Fresh { device } => call(Request::Fresh {
                device: &own(device),
            }),
            Request::Run {
                text,
                device,
                outcome,
                sheet,
            } => call(Request::Run {
                text: &own(text),
                device: &own(device),
                outcome: &own(outcome),
                sheet: &own(sheet),
            }),
            Request::RunFiles {
                set,
                device,
                outcome,
                sheet,
            } => call(Request::RunFiles {
                set: &own(set),
                device: &own(device),
                outcome: &own(outcome),
                sheet: &own(sheet),
            }),
            Request::RunEach { text, set, sheet } => call(Request::RunEach {
                text: &own(text),
                set: &own(set),
                sheet: &own(sheet),
            }),
            Request::Close { device, outcome } => call(Request::Close {
                device: &own(device),
                outcome: &own(outcome),
            }),
            Request::Contest { set } => call(Request::Contest { set: &own(set) }),
            Request::Write { text } => call(Request::Write { text: &own(text) }),
            Request::Strike { text } => call(Request::Strike { text: &own(text) }),
            Request::PlanCheck { set, text } => call(Request::PlanCheck {
                set: &own(set),
                text: &own(text),
            }),
            Request::Plan { set } => call(Request::Plan { set: &own(set) }),
            Request::Newer { device, outcome } => call(Request::Newer {
                device: &own(device),
                outcome: &own(outcome),
            }),
            Request::Older { device, outcome } => call(Request::Older {
                device: &own(device),
                outcome: &own(outcome),
            }),
        }
        *answer
    }
}

fn own(bytes: &[u8]) -> Box<[u8]> {
    Box::from(bytes)
}
