//! Prints what the generated cases reach.

use std::env;
use std::process::ExitCode;
use std::time::Instant;

use reference::compare::{compare_cases, Reference};
use reference::coverage::Coverage;

fn main() -> ExitCode {
    let arguments: Vec<String> = env::args().skip(1).collect();
    let Some((cases, seed)) = read_arguments(&arguments) else {
        eprintln!("usage: coverage CASES [FIRST-SEED]");
        return ExitCode::from(2);
    };
    let start = Instant::now();
    let mut coverage = Coverage::default();
    let seeds = seed..seed + cases;
    compare_cases(&Reference, &Reference, seeds, 1, |case, replies| {
        coverage.see(case, replies);
    });
    println!("{coverage}\n{:.1} seconds", start.elapsed().as_secs_f64());
    ExitCode::SUCCESS
}

fn read_arguments(arguments: &[String]) -> Option<(u64, u64)> {
    match arguments {
        [cases] => Some((cases.parse().ok()?, 0)),
        [cases, seed] => Some((cases.parse().ok()?, seed.parse().ok()?)),
        _ => None,
    }
}
