//! What the generated cases reach, and that the comparison finds differences.

use reference::case_files::{read_case, write_case};
use reference::compare::{
    compare_cases, compare_joins, first_number, replies, Engine, Operation, Reference, Request,
};
use reference::coverage::{Coverage, Fact, PIECES};
use reference::generate::edges::EDGES;
use reference::generate::faults::FAULTY_PAIRS;
use reference::generate::rng::Rng;
use reference::generate::{case, pairing_shape};
use reference::key::{Operator, KEYS};
use reference::refusal::Fault;
use reference::request::Written;
use reference::Device;

const CASES: u64 = 50_000;

#[test]
fn a_seed_gives_the_same_case_again() {
    for seed in 0..200 {
        let (first, second) = (case(seed), case(seed));
        assert_eq!(first.text, second.text);
        assert_eq!(first.device, second.device);
        assert_eq!(first.outcome, second.outcome);
        assert_eq!(first.sheet, second.sheet);
        assert_eq!(first.rooms, second.rooms);
    }
}

#[test]
fn every_edge_gives_its_number() {
    for edge in EDGES.iter().copied().flatten() {
        for seed in 0..20 {
            let case = (edge.build)(&mut Rng::new(seed));
            let number = first_number(&replies(&Reference, &case));
            assert_eq!(number, edge.number, "{} with seed {seed}", edge.name);
        }
    }
}

#[test]
fn every_faulty_pair_gives_its_number() {
    for (number, pairs) in FAULTY_PAIRS {
        for pair in *pairs {
            let text = format!("# first\nTAG+=\"a\",{pair}");
            let answer = reference::check(text.as_bytes());
            assert_eq!((answer.number, answer.line), (*number, 2), "{pair}");
        }
    }
}

/// The numbers that cases reach with what they ask for beside check, fresh, run and close.
const EXTRA_ANSWERS: &[(Operation, &[u32])] = &[
    (Operation::Contest, &[0, 1, 3, 4, 7]),
    (
        Operation::RunFiles,
        &[0, 1, 2, 3, 4, 6, 7, 11, 19, 20, 21, 30, 31, 33, 34, 35, 36],
    ),
    (Operation::RunFilesPermuted, &[0, 1, 3, 4, 6, 11, 21, 31]),
    (Operation::RunEach, &[0, 1, 7]),
    (Operation::PlanCheck, &[0, 3, 7]),
    (Operation::Plan, &[0, 1, 3, 7]),
    (Operation::PlanCheckOwn, &[0, 3, 7]),
    (Operation::Newer, &[0, 1, 3, 4]),
    (Operation::OlderAfterNewer, &[0, 1, 4]),
    (Operation::Older, &[0, 1, 3, 4, 5]),
    (Operation::NewerAfterOlder, &[0, 1, 4]),
    (
        Operation::Write,
        &[0, 1, 10, 11, 12, 13, 14, 15, 16, 17, 19],
    ),
    (Operation::WriteAgain, &[0, 1]),
    (Operation::Strike, &[0, 1]),
    (Operation::StrikeAgain, &[0, 1]),
    (Operation::CheckStruck, &[0]),
];

#[test]
fn cases_reach_everything() {
    let mut coverage = Coverage::default();
    let findings = compare_cases(&Reference, &Reference, 0..CASES, 1, |case, replies| {
        coverage.see(case, replies);
    });
    assert!(findings.is_empty());
    assert_eq!(coverage.cases, CASES);
    for &fault in Fault::ALL {
        let count = coverage.number_count(fault.number());
        assert!(count >= 20, "{fault:?} only {count} times\n{coverage}");
    }
    for (operation, numbers) in EXTRA_ANSWERS {
        for &number in *numbers {
            let answers = &coverage.answers;
            let count = *answers.get(&(*operation, number)).unwrap_or(&0);
            assert!(count >= 5, "{operation:?} {number} only {count} times");
        }
    }
    for row in &KEYS {
        for operator in Operator::ALL {
            let shape = pairing_shape(row, operator);
            let is_allowed = row.operators.contains(&operator);
            let number = if is_allowed { 0 } else { 13 };
            let reached = coverage.shapes.contains_key(&(shape.clone(), number));
            // A jump without its label is refused.
            assert!(reached || row.name == "GOTO", "{shape} {number}");
            if is_allowed {
                let count = coverage.pairs[&(row.key, operator)];
                assert!(count.effective >= 20, "{shape} {count:?}");
                assert!(count.without_effect >= 20, "{shape} {count:?}");
            }
        }
    }
    for piece in PIECES {
        assert!(coverage.pieces[piece] >= 100, "{piece}");
    }
    for fact in Fact::ALL {
        assert!(coverage.facts[fact] >= 100, "{fact:?}");
    }
    for edge in EDGES.iter().copied().flatten() {
        let shape = (edge.name.to_string(), edge.number);
        assert!(coverage.shapes.contains_key(&shape), "{}", edge.name);
    }
}

#[test]
fn no_run_tries_more_than_its_chain_for_each_visited_rule() {
    let mut at_the_bound = 0;
    for seed in 0..CASES / 10 {
        let case = case(seed);
        let Some(device) = Device::decode(&case.device) else {
            continue;
        };
        for reply in replies(&Reference, &case) {
            let bound = reply.visited() * device.chain.len() as u32;
            assert!(reply.tried() <= bound, "seed {seed}");
            at_the_bound += u32::from(bound > 0 && reply.tried() == bound);
        }
    }
    assert!(at_the_bound > 20, "{at_the_bound} at the bound");
}

/// The reference with a change to what some operation gives.
struct Flawed {
    flaw: fn(&mut [u32; 8], &mut [u8]),
}

impl Engine for Flawed {
    fn answer(&self, request: &Request, written: &mut Written) -> [u32; 8] {
        let mut answer = Reference.answer(request, written);
        (self.flaw)(&mut answer, &mut written.target);
        answer
    }
}

fn finds(flaw: fn(&mut [u32; 8], &mut [u8])) -> bool {
    let flawed = Flawed { flaw };
    let findings = compare_cases(&Reference, &flawed, 0..500, 3, |_, _| {});
    let of_joins = compare_joins(&Reference, &flawed, 0..100, 3);
    !findings.is_empty() && findings.len() <= 3 && !of_joins.is_empty()
}

#[test]
fn the_comparison_finds_flaws() {
    assert!(finds(|answer, _| answer[0] ^= 1));
    assert!(finds(|answer, _| answer[1] += u32::from(answer[0] > 9)));
    assert!(finds(|answer, _| answer[2] = 1));
    assert!(finds(|answer, _| answer[3] += u32::from(answer[3] > 20)));
    assert!(finds(|answer, _| answer[4] += u32::from(answer[4] > 0)));
    assert!(finds(|answer, _| answer[7] = 1));
    assert!(finds(|answer, target| if answer[0] == 0 {
        if let Some(last) = target.last_mut() {
            *last = 0xAA;
        }
    }));
    assert!(finds(|answer, target| if answer[0] == 31 {
        target[0] = 0x10;
    }));
}

#[test]
fn the_comparison_finds_nothing_where_there_is_nothing() {
    let same = Flawed { flaw: |_, _| {} };
    assert!(compare_cases(&Reference, &same, 0..500, 3, |_, _| {}).is_empty());
    assert!(compare_joins(&Reference, &same, 0..100, 3).is_empty());
}

#[test]
fn cases_come_back_from_their_files() {
    let directory = std::env::temp_dir().join(format!("reference-case-{}", std::process::id()));
    for seed in 0..200 {
        let written = case(seed);
        write_case(&directory, &written).expect("the files are written");
        let read = read_case(&directory).expect("the files are read");
        std::fs::remove_dir_all(&directory).expect("the files are removed");
        assert_eq!(read.text, written.text);
        assert_eq!(read.device, written.device);
        assert_eq!(read.outcome, written.outcome);
        assert_eq!(read.sheet, written.sheet);
        assert_eq!(read.rooms, written.rooms);
        assert_eq!(read.extra, written.extra);
    }
}
