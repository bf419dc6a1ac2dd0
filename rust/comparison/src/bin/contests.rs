//! Measures the contest of the linked engine beside the reference's: sets of 64 full records.

use std::hint::black_box;
use std::time::{Duration, Instant};

use comparison::workloads::counter;
use reference::generate::fullest;
use reference::record_set::{RecordPair, RecordSet};
use reference::{sizes, Outcome};
use spillfinch::calls::{self, Answer};

/// How often each set is given to each engine, in turns; the best time counts.
const TIMES: usize = 20;
const RECORDS: usize = 64;
const LINKS: usize = 16;

/// A set, and how many names its list has.
struct Set {
    name: &'static str,
    bytes: Vec<u8>,
    names: u32,
}

/// 64 records that are full but for the links, which a function of their numbers gives.
fn set(name: &'static str, names: usize, link: impl Fn(usize) -> String) -> Set {
    let device = counter().encode();
    let record = |index: usize| {
        let links = (0..LINKS).map(|place| link(index * LINKS + place).into_bytes());
        let mut outcome = Outcome {
            priority: i32::try_from(index).expect("a small number"),
            links: links.collect(),
            ..fullest()
        };
        for run in &mut outcome.runs {
            run.matched = 0;
        }
        RecordPair {
            device: device.clone(),
            outcome: outcome.encode(),
        }
    };
    let entries = (0..RECORDS).map(record).collect();
    Set {
        name,
        bytes: RecordSet { entries }.encode(),
        names: u32::try_from(names).expect("a small number"),
    }
}

fn sets() -> [Set; 4] {
    let most = RECORDS * LINKS;
    [
        set("1,024 names that differ in their first bytes", most, |i| {
            format!("{i:0>4}{:x<124}", "")
        }),
        set("1,024 names that differ in their last bytes", most, |i| {
            format!("{:x<124}{i:0>4}", "")
        }),
        set(
            "the same 16 names in all, different at the front",
            LINKS,
            |i| format!("{:0>4}{:x<124}", i % LINKS, ""),
        ),
        set(
            "the same 16 names in all, different at the end",
            LINKS,
            |i| format!("{:x<124}{:0>4}", "", i % LINKS),
        ),
    ]
}

fn time(call: impl FnOnce()) -> Duration {
    let start = Instant::now();
    call();
    start.elapsed()
}

fn main() {
    let mut target = vec![0; sizes::CONTEST_TARGET];
    let mut expected = vec![0; sizes::CONTEST_TARGET];
    for set in sets() {
        let mut best = [Duration::MAX; 2];
        for _ in 0..TIMES {
            let mut answer = Answer::default();
            let linked = time(|| calls::contest(black_box(&set.bytes), &mut target, &mut answer));
            let numbers = (answer[calls::NUMBER], answer[calls::COUNT]);
            assert_eq!(numbers, (0, set.names), "{}", set.name);
            let reference = time(|| {
                black_box(reference::contest(black_box(&set.bytes), &mut expected));
            });
            assert!(target == expected, "{}", set.name);
            best = [best[0].min(linked), best[1].min(reference)];
        }
        let [linked, reference] = best.map(|time| time.as_secs_f64() * 1e3);
        println!("{}: {linked:.2} ms, reference {reference:.2} ms", set.name);
    }
}
