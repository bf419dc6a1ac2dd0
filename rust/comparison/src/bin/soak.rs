//! Compares the linked engine with the reference for some time.

use std::env;
use std::path::{Path, PathBuf};
use std::process::ExitCode;
use std::time::{Duration, Instant, SystemTime, UNIX_EPOCH};

use comparison::Linked;
use reference::case_files::write_case;
use reference::compare::{compare_cases, compare_joins, Finding, Reference};
use reference::coverage::Coverage;

const CASES_AT_ONCE: u64 = 2_000;
const JOINS_AT_ONCE: u64 = 200;
const FINDINGS: usize = 5;

fn main() -> ExitCode {
    let arguments: Vec<String> = env::args().skip(1).collect();
    let Some((seconds, seed)) = read_arguments(&arguments) else {
        eprintln!("usage: soak SECONDS [FIRST-SEED]");
        return ExitCode::from(2);
    };
    println!("first seed {seed}");
    let end = Instant::now() + Duration::from_secs(seconds);
    let mut coverage = Coverage::default();
    let mut joins = 0;
    let mut next_seed = seed;
    let mut findings = Vec::new();
    while findings.is_empty() && Instant::now() < end {
        // An engine that does not come back is told by the seeds it was given.
        eprint!("\rcases from seed {next_seed} ");
        let cases = next_seed..next_seed + CASES_AT_ONCE;
        let lists = next_seed..next_seed + JOINS_AT_ONCE;
        findings = compare_cases(&Reference, &Linked, cases, FINDINGS, |case, replies| {
            coverage.see(case, replies);
        });
        findings.extend(compare_joins(&Reference, &Linked, lists, FINDINGS));
        joins += JOINS_AT_ONCE;
        next_seed += CASES_AT_ONCE;
    }
    eprintln!();
    println!("{coverage}\n{joins} join lists and cut texts");
    report(&findings)
}

fn read_arguments(arguments: &[String]) -> Option<(u64, u64)> {
    match arguments {
        [seconds] => Some((seconds.parse().ok()?, seed_of_now())),
        [seconds, seed] => Some((seconds.parse().ok()?, seed.parse().ok()?)),
        _ => None,
    }
}

fn seed_of_now() -> u64 {
    let since_epoch = SystemTime::now().duration_since(UNIX_EPOCH);
    since_epoch.map_or(0, |time| time.as_secs() << 24)
}

fn report(findings: &[Finding]) -> ExitCode {
    if findings.is_empty() {
        println!("no difference");
        return ExitCode::SUCCESS;
    }
    for finding in findings {
        let directory = directory_of(finding);
        println!(
            "seed {} ({}): {}",
            finding.seed, finding.case.shape, finding.message
        );
        match write_case(&directory, &finding.case) {
            Ok(()) => println!("  replay {}", directory.display()),
            Err(error) => println!("  not written to {}: {error}", directory.display()),
        }
    }
    ExitCode::FAILURE
}

fn directory_of(finding: &Finding) -> PathBuf {
    let name = format!("{}-{}", finding.seed, finding.case.shape);
    Path::new("target/differences").join(name.replace([' ', ',', '\''], "-"))
}
