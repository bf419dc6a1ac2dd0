//! The stack that the header asks for is enough.

use comparison::stack::LinkedOnStack;
use comparison::workloads::all_workloads;
use reference::compare::replies;
use reference::generate::case;

/// As include/spillfinch.h says.
const MOST: usize = 128 * 1024;
const CASES: u64 = 2_000;

#[test]
fn no_call_takes_more() {
    let engine = LinkedOnStack::default();
    for case in all_workloads()
        .map(|workload| workload.case())
        .chain((0..CASES).map(case))
    {
        replies(&engine, &case);
    }
    assert!(engine.most() < MOST, "{} bytes", engine.most());
}
