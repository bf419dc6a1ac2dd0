//! Measures the run of a set of 32 files of 32,768 bytes beside runs of its texts one after another:
//! of all texts of the benchmark, or of those that are named.

use std::env;
use std::hint::black_box;
use std::time::{Duration, Instant};

use comparison::workloads::{counter, workloads, Workload};
use reference::file_set::{FileSet, Rank, RulesFile};
use reference::sizes;
use spillfinch::calls::{self, Answer};

/// How often each set and its texts are run, in turns; the best time counts.
const TIMES: usize = 20;

fn main() {
    let named: Vec<String> = env::args().skip(1).collect();
    let is_meant =
        |workload: &Workload| named.is_empty() || named.iter().any(|name| name == workload.name);
    println!(
        "{:14} {:>8} {:>8} {:>6}",
        "text", "set, ms", "runs, ms", "ratio"
    );
    for workload in workloads().into_iter().filter(is_meant) {
        let Some((set, runs)) = measured(&workload) else {
            println!("{:14} refused", workload.name);
            continue;
        };
        let [set, runs] = [set, runs].map(|time| time.as_secs_f64() * 1e3);
        let ratio = set / runs;
        println!("{:14} {set:8.2} {runs:8.2} {ratio:6.2}", workload.name);
    }
}

/// The best times of the set of a text and of its runs, if they are not refused.
fn measured(workload: &Workload) -> Option<(Duration, Duration)> {
    let device = counter().encode();
    let start = workload.outcome.encode();
    let sheet = workload.sheet.encode();
    let text = of_full_length(&workload.text);
    let set = set_of(&text);
    let mut target = vec![0; sizes::OUTCOME_TARGET];
    let mut best = [Duration::MAX; 2];
    for _ in 0..TIMES {
        let mut answer = Answer::default();
        let begun = Instant::now();
        calls::run_files(
            black_box(&set),
            &device,
            &start,
            &sheet,
            &mut target,
            &mut answer,
        );
        let of_set = begun.elapsed();

        let mut record = start.clone();
        let mut next = vec![0; sizes::OUTCOME_TARGET];
        let begun = Instant::now();
        for _ in 0..sizes::SET_FILES {
            let mut answer = Answer::default();
            calls::run(
                black_box(&text),
                &device,
                &record,
                &sheet,
                &mut next,
                &mut answer,
            );
            record.clear();
            record.extend_from_slice(&next[..answer[calls::USED] as usize]);
        }
        let of_runs = begun.elapsed();
        if answer[calls::NUMBER] != 0 {
            return None;
        }
        assert!(target == next, "{}", workload.name);
        best = [best[0].min(of_set), best[1].min(of_runs)];
    }
    Some((best[0], best[1]))
}

/// The text and comments behind it.
fn of_full_length(text: &[u8]) -> Vec<u8> {
    let mut full = text.to_vec();
    while full.len() < sizes::TEXT {
        let line = (sizes::TEXT - full.len()).min(80);
        full.resize(full.len() + line - 1, b'#');
        full.push(b'\n');
    }
    full
}

fn set_of(text: &[u8]) -> Vec<u8> {
    let file = |index: usize| RulesFile {
        rank: Rank::Lib,
        name: format!("{index:02}.rules").into_bytes(),
        text: text.to_vec(),
    };
    let files = (0..sizes::SET_FILES).map(file).collect();
    FileSet { files }.encode()
}
