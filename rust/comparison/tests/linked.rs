//! The linked engine against the reference.

use comparison::Linked;
use reference::compare::{compare_cases, compare_joins, Finding, Reference};

const CASES: u64 = 200_000;
const JOIN_LISTS: u64 = 20_000;

fn assert_none(findings: &[Finding]) {
    for finding in findings {
        let Finding {
            seed,
            case,
            message,
        } = finding;
        eprintln!("seed {seed} ({}): {message}", case.shape);
    }
    assert!(findings.is_empty(), "the engines differ");
}

#[test]
fn cases() {
    assert_none(&compare_cases(&Reference, &Linked, 0..CASES, 5, |_, _| {}));
}

#[test]
fn join_lists() {
    assert_none(&compare_joins(&Reference, &Linked, 0..JOIN_LISTS, 5));
}
