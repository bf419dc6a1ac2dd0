//! Measures the linked engine beside the reference, in one process.

use std::env;
use std::ffi::{c_char, c_int, CStr};
use std::hint::black_box;
use std::io::{self, Write};
use std::process::ExitCode;
use std::time::Instant;

use comparison::workloads::{all_workloads, counter, family, faulty_lines, Workload};
use comparison::Linked;
use reference::compare::{run_reply, Engine, Reference, Request};
use reference::record_set::{RecordPair, RecordSet};
use reference::request::Written;
use reference::{generate, sizes, Outcome, Sheet};

const USAGE: &str = "usage: bench
       bench list                       name, bytes and rules of each text
       bench text TEXT                  a text itself
       bench count ENGINE TEXT TIMES    run a text so often with an engine, linked or reference
       bench each TEXT DEVICES          run a text for so many devices in one call
       bench call OPERATION TEXT TIMES  check or strike a text so often, faulty_lines among them
       bench worst CASES                the generated cases whose runs take longest beside the reference";

/// How often each text is run by each engine, in turns; the best time of all counts.
const RUNS: usize = 400;
/// The same for runs for many devices.
const RUNS_OF_MANY: usize = 40;
/// The same for the texts that time one match, which is a small difference.
const RUNS_FOR_DIFFERENCES: usize = 4_000;

fn main() -> ExitCode {
    let arguments: Vec<String> = env::args().skip(1).collect();
    let words: Vec<&str> = arguments.iter().map(String::as_str).collect();
    let done = match words[..] {
        [] => {
            show_texts();
            show_growth();
            show_matches();
            Some(())
        }
        ["list"] => {
            list();
            Some(())
        }
        ["text", text] => show_text(text),
        ["count", engine, text, times] => count(engine, text, times),
        ["each", text, devices] => each(text, devices),
        ["call", operation, text, times] => call(operation, text, times),
        ["worst", cases] => show_worst(cases),
        _ => None,
    };
    if done.is_none() {
        eprintln!("{USAGE}");
        return ExitCode::from(2);
    }
    ExitCode::SUCCESS
}

// ---- a run

/// What a run is given beside its text. The target is reused; an engine writes all of it.
struct Bench {
    device: Vec<u8>,
    outcome: Vec<u8>,
    sheet: Vec<u8>,
    written: Written,
}

impl Bench {
    /// The counter, with that record and that sheet.
    fn new(outcome: &Outcome, sheet: &Sheet) -> Bench {
        Bench {
            device: counter().encode(),
            outcome: outcome.encode(),
            sheet: sheet.encode(),
            written: Written::with_target(sizes::OUTCOME_TARGET),
        }
    }

    /// Runs a text and gives the nanoseconds that it took.
    fn run(&mut self, engine: &dyn Engine, text: &[u8]) -> f64 {
        let request = Request::Run {
            text,
            device: &self.device,
            outcome: &self.outcome,
            sheet: &self.sheet,
        };
        let start = Instant::now();
        black_box(engine.answer(black_box(&request), &mut self.written));
        start.elapsed().as_nanos() as f64
    }

    /// The best times of the linked engine and of the reference.
    fn times_of_both(&mut self, runs: usize, text: &[u8]) -> [f64; 2] {
        best(runs, |which| match which {
            0 => self.run(&Linked, text),
            _ => self.run(&Reference, text),
        })
    }

    fn assert_engines_agree(&self, text: &[u8]) {
        let room = self.written.target.len();
        let Bench {
            device,
            outcome,
            sheet,
            ..
        } = self;
        let [ours, reference] = [&Linked as &dyn Engine, &Reference]
            .map(|engine| run_reply(engine, text, device, outcome, sheet, room));
        assert_eq!(ours, reference);
    }
}

/// A run of a text for so many devices in one call, each of them the counter.
struct BenchEach {
    set: Vec<u8>,
    sheet: Vec<u8>,
    written: Written,
}

impl BenchEach {
    fn new(workload: &Workload, devices: usize) -> BenchEach {
        let pair = RecordPair {
            device: counter().encode(),
            outcome: workload.outcome.encode(),
        };
        let set = RecordSet {
            entries: vec![pair; devices],
        };
        let targets = Written::with_target(devices * sizes::OUTCOME_TARGET);
        BenchEach {
            set: set.encode(),
            sheet: workload.sheet.encode(),
            written: targets.with_answers(devices * sizes::ANSWER),
        }
    }

    /// Runs a text and gives the nanoseconds that it took.
    fn run(&mut self, text: &[u8]) -> f64 {
        let request = Request::RunEach {
            text,
            set: &self.set,
            sheet: &self.sheet,
        };
        let start = Instant::now();
        black_box(Linked.answer(black_box(&request), &mut self.written));
        start.elapsed().as_nanos() as f64
    }
}

/// The best times of runs that are taken in turns, so many of each.
fn best<const N: usize>(runs: usize, mut run: impl FnMut(usize) -> f64) -> [f64; N] {
    let mut best = [f64::INFINITY; N];
    for _ in 0..runs {
        for (which, best) in best.iter_mut().enumerate() {
            *best = best.min(run(which));
        }
    }
    best
}

/// The best times of the linked engine and of the reference on the counter.
fn times_of_both(workload: &Workload) -> [f64; 2] {
    let mut bench = Bench::new(&workload.outcome, &workload.sheet);
    bench.assert_engines_agree(&workload.text);
    bench.times_of_both(RUNS, &workload.text)
}

/// What a device more takes in one call, by the best times for one and for all that a call takes.
fn time_of_a_device_more(workload: &Workload) -> f64 {
    let [mut one, mut most] = [1, sizes::SET_RECORDS].map(|n| BenchEach::new(workload, n));
    let [of_one, of_most] = best(RUNS_OF_MANY, |which| match which {
        0 => one.run(&workload.text),
        _ => most.run(&workload.text),
    });
    (of_most - of_one) / (sizes::SET_RECORDS - 1) as f64
}

// ---- texts

fn workload_of(name: &str) -> Option<Workload> {
    all_workloads().find(|workload| workload.name == name)
}

fn list() {
    for workload in all_workloads() {
        println!(
            "{} {} {}",
            workload.name,
            workload.text.len(),
            workload.rules(),
        );
    }
}

fn show_text(name: &str) -> Option<()> {
    let workload = workload_of(name)?;
    io::stdout().write_all(&workload.text).ok()
}

fn count(engine: &str, text: &str, times: &str) -> Option<()> {
    let engine: &dyn Engine = match engine {
        "linked" => &Linked,
        "reference" => &Reference,
        _ => return None,
    };
    let workload = workload_of(text)?;
    let times: usize = times.parse().ok()?;
    let mut bench = Bench::new(&workload.outcome, &workload.sheet);
    for _ in 0..times {
        bench.run(engine, &workload.text);
    }
    Some(())
}

fn each(text: &str, devices: &str) -> Option<()> {
    let workload = workload_of(text)?;
    let devices: usize = devices.parse().ok()?;
    BenchEach::new(&workload, devices).run(&workload.text);
    Some(())
}

/// Calls an operation that takes only a text.
fn call(operation: &str, text: &str, times: &str) -> Option<()> {
    let text = match text {
        "faulty_lines" => faulty_lines(),
        _ => workload_of(text)?.text,
    };
    let request = match operation {
        "check" => Request::Check { text: &text },
        "strike" => Request::Strike { text: &text },
        _ => return None,
    };
    let times: usize = times.parse().ok()?;
    let mut written = Written::with_target(sizes::TEXT).with_strikes(2 * sizes::STRIKES);
    for _ in 0..times {
        black_box(Linked.answer(black_box(&request), &mut written));
    }
    Some(())
}

fn show_texts() {
    println!(
        "{:14} {:>6} {:>6} {:>9} {:>8} {:>8} {:>13} {:>8} {:>16}",
        "text",
        "bytes",
        "rules",
        "us a run",
        "ns/rule",
        "ns/byte",
        "reference us",
        "ratio",
        "us a device more"
    );
    for workload in all_workloads() {
        let [ours, reference] = times_of_both(&workload);
        println!(
            "{:14} {:6} {:6} {:9.1} {:8.1} {:8.2} {:13.1} {:8.2} {:16.1}",
            workload.name,
            workload.text.len(),
            workload.rules(),
            ours / 1e3,
            ours / workload.rules() as f64,
            ours / workload.text.len() as f64,
            reference / 1e3,
            ours / reference,
            time_of_a_device_more(&workload) / 1e3,
        );
    }
}

fn show_growth() {
    println!("\ntime with size, each against the size before");
    let mut before: Option<f64> = None;
    for workload in family() {
        let [ours, _] = times_of_both(&workload);
        let growth = before.map_or(String::new(), |before| format!("{:.2}", ours / before));
        println!("{:14} {:9.1} us {growth:>6}", workload.name, ours / 1e3);
        before = Some(ours);
    }
}

// ---- generated cases

/// A few runs tell the cases that may be slow; these are timed again.
const RUNS_OF_A_CASE: usize = 4;
const WORST: usize = 20;

fn show_worst(cases: &str) -> Option<()> {
    let cases: u64 = cases.parse().ok()?;
    let seeds: Vec<u64> = (0..cases).collect();
    let suspects = slowest(&seeds, RUNS_OF_A_CASE, 10 * WORST);
    let suspects: Vec<u64> = suspects.into_iter().map(|(seed, _)| seed).collect();
    println!(
        "{:>8} {:>6} {:>9} {:>13} {:>8}  case",
        "seed", "bytes", "us a run", "reference us", "ratio"
    );
    for (seed, times) in slowest(&suspects, RUNS, WORST) {
        let case = generate::case(seed);
        println!(
            "{seed:8} {:6} {:9.2} {:13.2} {:8.2}  {}",
            case.text.len(),
            times[0] / 1e3,
            times[1] / 1e3,
            ratio(times),
            case.shape,
        );
    }
    Some(())
}

/// The cases with the highest ratios, and their times.
fn slowest(seeds: &[u64], runs: usize, most: usize) -> Vec<(u64, [f64; 2])> {
    let mut timed: Vec<(u64, [f64; 2])> = seeds
        .iter()
        .map(|&seed| (seed, times_of_case(seed, runs)))
        .collect();
    timed.sort_by(|(_, first), (_, second)| ratio(*second).total_cmp(&ratio(*first)));
    timed.truncate(most);
    timed
}

fn ratio([ours, reference]: [f64; 2]) -> f64 {
    ours / reference
}

fn times_of_case(seed: u64, runs: usize) -> [f64; 2] {
    let case = generate::case(seed);
    let mut bench = Bench {
        device: case.device,
        outcome: case.outcome,
        sheet: case.sheet,
        written: Written::with_target(sizes::OUTCOME_TARGET),
    };
    bench.times_of_both(runs, &case.text)
}

// ---- one match

extern "C" {
    fn fnmatch(pattern: *const c_char, string: *const c_char, flags: c_int) -> c_int;
    /// Of same_bytes.c: lengths first, then byte by byte.
    fn same_bytes(a: *const u8, a_length: usize, b: *const u8, b_length: usize) -> c_int;
}

/// A pattern and a plain value, each on a name that it matches.
fn show_matches() {
    show_match(c"ttyUSB[0-9]*", c"ttyUSB17", "fnmatch", |pattern, name| {
        // Both are strings with a NUL at the end, and fnmatch only reads them.
        unsafe { fnmatch(pattern.as_ptr(), name.as_ptr(), 0) == 0 }
    });
    show_match(
        c"ttyUSB17",
        c"ttyUSB17",
        "a byte loop in C",
        |value, name| {
            let (value, name) = (value.to_bytes(), name.to_bytes());
            // Both are read within their lengths.
            unsafe { same_bytes(value.as_ptr(), value.len(), name.as_ptr(), name.len()) == 1 }
        },
    );
}

/// The matcher alone is not exported, so its time is a difference. A rule with one match, of TAG
/// by `==`, is run on records without a tag and with one that the match value matches: the second
/// calls the matcher once more, and its rule goes on. With `!=` the rule of the first goes on
/// instead, so the mean of both differences is the time of one call, with the step over a list
/// that leads to it.
fn show_match(value: &CStr, name: &CStr, other: &str, matches: fn(&CStr, &CStr) -> bool) {
    let rules = sizes::RULES as f64;
    let text = |operator: &str| {
        let value = value.to_string_lossy();
        format!("TAG{operator}\"{value}\"\n").repeat(sizes::RULES)
    };
    let (equal, unequal) = (text("=="), text("!="));
    let fresh = Outcome::fresh(&counter());
    let tagged = Outcome {
        tags: vec![name.to_bytes().to_vec()],
        ..fresh.clone()
    };
    let [mut without, mut with] =
        [&fresh, &tagged].map(|outcome| Bench::new(outcome, &Sheet::default()));
    let [equal_without, equal_with, unequal_without, unequal_with, calls] =
        best(RUNS_FOR_DIFFERENCES, |which| match which {
            0 => without.run(&Linked, equal.as_bytes()),
            1 => with.run(&Linked, equal.as_bytes()),
            2 => without.run(&Linked, unequal.as_bytes()),
            3 => with.run(&Linked, unequal.as_bytes()),
            _ => time_of_calls(sizes::RULES, value, name, matches),
        });
    let ours = (equal_with - equal_without + unequal_with - unequal_without) / 2.0 / rules;
    let calls = calls / rules;
    println!(
        "\n{} on {}: {ours:.1} ns, {other} {calls:.1} ns, ratio {:.2}",
        value.to_string_lossy(),
        name.to_string_lossy(),
        ours / calls,
    );
}

fn time_of_calls(
    times: usize,
    value: &CStr,
    name: &CStr,
    matches: fn(&CStr, &CStr) -> bool,
) -> f64 {
    let start = Instant::now();
    for _ in 0..times {
        assert!(matches(black_box(value), black_box(name)), "a match");
    }
    start.elapsed().as_nanos() as f64
}
