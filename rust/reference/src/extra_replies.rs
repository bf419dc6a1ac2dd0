//! What an engine gives for what a case asks for beside the check, the fresh record, the run and
//! the close.

use crate::compare::{reply, Engine, Operation, Reference, Reply, Request};
use crate::generate::{Case, Extra};
use crate::request::Written;

pub fn extra_replies(engine: &dyn Engine, case: &Case) -> Vec<Reply> {
    match &case.extra {
        Extra::Nothing => Vec::new(),
        Extra::Contest { set, room } => {
            let request = Request::Contest { set };
            let written = Written::with_target(*room);
            vec![reply(engine, Operation::Contest, &request, written)]
        }
        Extra::RunFiles {
            set,
            permuted,
            room,
        } => vec![
            run_files_reply(engine, Operation::RunFiles, case, set, *room),
            run_files_reply(engine, Operation::RunFilesPermuted, case, permuted, *room),
        ],
        Extra::Plan {
            set,
            proposal,
            room,
        } => plan_replies(engine, set, proposal, *room),
        Extra::RunEach {
            set,
            targets,
            answers,
        } => {
            let request = Request::RunEach {
                text: &case.text,
                set,
                sheet: &case.sheet,
            };
            let written = Written::with_target(*targets).with_answers(*answers);
            vec![reply(engine, Operation::RunEach, &request, written)]
        }
        Extra::Convert { old, newer, older } => convert_replies(engine, case, old, *newer, *older),
        Extra::Write { room } => write_replies(engine, &case.text, *room),
        Extra::Strike { room, strikes } => strike_replies(engine, &case.text, *room, *strikes),
    }
}

fn run_files_reply(
    engine: &dyn Engine,
    operation: Operation,
    case: &Case,
    set: &[u8],
    room: usize,
) -> Reply {
    let request = Request::RunFiles {
        set,
        device: &case.device,
        outcome: &case.outcome,
        sheet: &case.sheet,
    };
    reply(engine, operation, &request, Written::with_target(room))
}

/// A check of the proposal, then a plan, with checks by the engine and by the reference.
fn plan_replies(engine: &dyn Engine, set: &[u8], proposal: &[u8], room: usize) -> Vec<Reply> {
    let check = |engine: &dyn Engine, operation, text: &[u8]| {
        let request = Request::PlanCheck { set, text };
        reply(engine, operation, &request, Written::default())
    };
    let plan = |engine: &dyn Engine| {
        let request = Request::Plan { set };
        let written = Written::with_target(room);
        reply(engine, Operation::Plan, &request, written)
    };
    let (own, other) = (plan(engine), plan(&Reference));
    vec![
        check(engine, Operation::PlanCheck, proposal),
        check(engine, Operation::PlanCheckOwn, own.record()),
        check(engine, Operation::PlanCheckReference, other.record()),
        check(&Reference, Operation::PlanCheckByReference, own.record()),
        own,
    ]
}

fn write_replies(engine: &dyn Engine, text: &[u8], room: usize) -> Vec<Reply> {
    let write = |operation, text| {
        let request = Request::Write { text };
        reply(engine, operation, &request, Written::with_target(room))
    };
    let once = write(Operation::Write, text);
    let again = write(Operation::WriteAgain, once.record());
    vec![once, again]
}

fn strike_replies(engine: &dyn Engine, text: &[u8], room: usize, numbers: usize) -> Vec<Reply> {
    let strike = |operation, text| {
        let request = Request::Strike { text };
        let written = Written::with_target(room).with_strikes(numbers);
        reply(engine, operation, &request, written)
    };
    let once = strike(Operation::Strike, text);
    let again = strike(Operation::StrikeAgain, once.record());
    let request = Request::Check {
        text: once.record(),
    };
    let check = reply(engine, Operation::CheckStruck, &request, Written::default());
    vec![once, again, check]
}

/// There and back from either edition.
fn convert_replies(
    engine: &dyn Engine,
    case: &Case,
    old: &[u8],
    newer_room: usize,
    older_room: usize,
) -> Vec<Reply> {
    let device = &case.device;
    let newer = |operation, outcome| {
        let request = Request::Newer { device, outcome };
        reply(
            engine,
            operation,
            &request,
            Written::with_target(newer_room),
        )
    };
    let older = |operation, outcome| {
        let request = Request::Older { device, outcome };
        reply(
            engine,
            operation,
            &request,
            Written::with_target(older_room),
        )
    };
    let there = newer(Operation::Newer, old);
    let back = older(Operation::OlderAfterNewer, there.record());
    let other_way = older(Operation::Older, &case.outcome);
    let back_again = newer(Operation::NewerAfterOlder, other_way.record());
    vec![there, back, other_way, back_again]
}
