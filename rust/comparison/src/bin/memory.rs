//! Runs the linked engine for a tool that watches memory, and measures the stack that its calls take.

use std::env;
use std::process::ExitCode;

use comparison::stack::LinkedOnStack;
use comparison::workloads::all_workloads;
use comparison::LinkedApart;
use reference::compare::{first_difference, replies, Reference};
use reference::generate::{self, Case};

const USAGE: &str = "usage: memory CASES          compare with the reference, each slice in an allocation of its own: run it under valgrind
       memory stack CASES    the most stack that a call takes

Both take the texts of the benchmark and so many generated cases.";

fn main() -> ExitCode {
    let arguments: Vec<String> = env::args().skip(1).collect();
    let words: Vec<&str> = arguments.iter().map(String::as_str).collect();
    let done = match words[..] {
        [count] => cases(count).map(compare),
        ["stack", count] => cases(count).map(show_stack),
        _ => None,
    };
    done.unwrap_or_else(|| {
        eprintln!("{USAGE}");
        ExitCode::from(2)
    })
}

fn cases(count: &str) -> Option<Vec<Case>> {
    let count: u64 = count.parse().ok()?;
    let of_texts = all_workloads().map(|workload| workload.case());
    Some(of_texts.chain((0..count).map(generate::case)).collect())
}

fn compare(cases: Vec<Case>) -> ExitCode {
    for case in &cases {
        let [left, right] = [replies(&Reference, case), replies(&LinkedApart, case)];
        if let Some(difference) = first_difference(&left, &right) {
            println!("{}: {difference}", case.shape);
            return ExitCode::FAILURE;
        }
    }
    println!("{} cases, no difference", cases.len());
    ExitCode::SUCCESS
}

fn show_stack(cases: Vec<Case>) -> ExitCode {
    let engine = LinkedOnStack::default();
    for case in &cases {
        replies(&engine, case);
    }
    println!(
        "{} cases, at most {} bytes of stack a call",
        cases.len(),
        engine.most()
    );
    ExitCode::SUCCESS
}
