//! Closed keys: document 02, Item 13.

mod common;

use common::*;
use reference::content::Content;
use reference::device::Device;
use reference::generate::case;
use reference::key::Key;
use reference::lines::{lines, Line};
use reference::outcome::Outcome;
use reference::rules::{read_line, Pair};
use reference::sheet::{Sheet, EMPTY};
use reference::sizes::OUTCOME_TARGET;
use reference::writer::written_pairs;
use reference::Answer;

const KEYS: [Key; 6] = [
    Key::Symlink,
    Key::Tag,
    Key::Run,
    Key::Owner,
    Key::Group,
    Key::Mode,
];

fn close_key(outcome: &mut Outcome, key: Key) {
    let closed = &mut outcome.closed;
    *match key {
        Key::Symlink => &mut closed.links,
        Key::Tag => &mut closed.tags,
        Key::Run => &mut closed.runs,
        Key::Owner => &mut closed.owner,
        Key::Group => &mut closed.group,
        Key::Mode => &mut closed.mode,
        _ => panic!("{key:?} does not close"),
    } = true;
}

/// The outcome with nothing but what the key has, and whether it is closed.
fn entries(outcome: &Outcome, key: Key) -> Outcome {
    let mut kept = Outcome::default();
    let Outcome {
        links,
        tags,
        runs,
        owner,
        group,
        mode,
        closed,
        ..
    } = outcome.clone();
    match key {
        Key::Symlink => (kept.links, kept.closed.links) = (links, closed.links),
        Key::Tag => (kept.tags, kept.closed.tags) = (tags, closed.tags),
        Key::Run => (kept.runs, kept.closed.runs) = (runs, closed.runs),
        Key::Owner => (kept.owner, kept.closed.owner) = (owner, closed.owner),
        Key::Group => (kept.group, kept.closed.group) = (group, closed.group),
        Key::Mode => (kept.mode, kept.closed.mode) = (mode, closed.mode),
        _ => panic!("{key:?} does not close"),
    }
    kept
}

/// An accepted text without the assignments to a key. A rule stands in its first line, and the
/// newlines of its join follow it.
fn dropped(text: &[u8], key: Key) -> Vec<u8> {
    let left = |line: &Line| {
        let source = &text[line.span.clone()];
        let Some(pairs) = read_line(line).expect("an accepted text") else {
            return source.to_vec();
        };
        let is_dropped =
            |pair: &Pair| pair.key == key && matches!(pair.content, Content::Assignment(_));
        let kept: Vec<Pair> = pairs.into_iter().filter(|pair| !is_dropped(pair)).collect();
        let newlines = source.iter().copied().filter(|&byte| byte == b'\n');
        written_pairs(&kept).into_iter().chain(newlines).collect()
    };
    let lines: Vec<Vec<u8>> = lines(text).iter().map(left).collect();
    lines.join(&b'\n')
}

fn run(text: &[u8], device: &[u8], outcome: &[u8], sheet: &[u8]) -> (Answer, Vec<u8>) {
    let mut target = vec![0xAA; OUTCOME_TARGET];
    let answer = reference::run(text, device, outcome, sheet, &mut target);
    (answer, target)
}

#[test]
fn what_is_dropped_and_what_stays() {
    let text =
        "# SYMLINK=\"a\"\n SYMLINK=\"a\" , SYMLINK==\"b\"\nSYMLINK+=\"c\",\\\nSYMLINK-=\"d\"\n\
                TAG+=\"e\",\\\nSYMLINK:=\"f\"\\\n,TAG!=\"g\"\nRUN{builtin}+=\"h\"";
    assert_eq!(
        string(&dropped(text.as_bytes(), Key::Symlink)),
        "# SYMLINK=\"a\"\nSYMLINK==\"b\"\n\n\nTAG+=\"e\",TAG!=\"g\"\n\n\nRUN{builtin}+=\"h\""
    );
    let runs = "RUN+=\"a\", RUN{program}=\"b\"\nRUN{builtin}:=\"c\", LABEL=\"d\"\n";
    assert_eq!(
        string(&dropped(runs.as_bytes(), Key::Run)),
        "\nLABEL=\"d\"\n"
    );
    let programs = "PROGRAM:=\"a\",MODE:=\"%c\"";
    assert_eq!(
        string(&dropped(programs.as_bytes(), Key::Mode)),
        "PROGRAM:=\"a\""
    );
}

#[test]
fn a_key_that_closes_on_the_way_may_change_before() {
    let outcome = outcome_of("TAG+=\"a\"\nTAG:=\"b\"\nTAG+=\"c\"", &tty_usb0());
    assert_eq!(strings(&outcome.tags), ["b"]);
}

#[test]
fn only_visited_may_differ() {
    let device = tty_usb0();
    let mut start = outcome_of("TAG+=\"kept\"", &device);
    close_key(&mut start, Key::Tag);
    let start = start.encode();
    let text = "TAG=\"a\"\nATTRS{serial}==\"RC*\", TAG+=\"b\", SYMLINK+=\"c\"\nTAG-=\"kept\"";
    let device = device.encode();
    let (whole, target) = run(text.as_bytes(), &device, &start, EMPTY);
    let left = dropped(text.as_bytes(), Key::Tag);
    assert_eq!(string(&left), "\nATTRS{serial}==\"RC*\",SYMLINK+=\"c\"\n");
    let (of_left, target_of_left) = run(&left, &device, &start, EMPTY);
    assert_eq!(target, target_of_left);
    assert_eq!((whole.visited, of_left.visited), (3, 1));
    assert_eq!(
        (whole.number, whole.tried, whole.used),
        (0, of_left.tried, of_left.used)
    );
}

#[test]
fn closed_keys_of_generated_cases() {
    let (mut accepted, mut refused) = (0, 0);
    for seed in 0..3_000 {
        let case = case(seed);
        let Some(device) = Device::decode(&case.device) else {
            continue;
        };
        let Some(start) = Outcome::decode(&case.outcome, device.chain.len()) else {
            continue;
        };
        if check(&case.text).0 != 0 || Sheet::decode(&case.sheet).is_none() {
            continue;
        }
        for key in KEYS {
            let mut start = start.clone();
            close_key(&mut start, key);
            let record = start.encode();
            let left = dropped(&case.text, key);
            assert_eq!(check(&left), (0, 0), "seed {seed}");
            assert!(left.len() <= case.text.len());
            let (whole, target) = run(&case.text, &case.device, &record, &case.sheet);
            let (of_left, target_of_left) = run(&left, &case.device, &record, &case.sheet);
            assert_eq!(target, target_of_left, "seed {seed} {key:?}");
            let without_visited = |answer: Answer| Answer {
                visited: 0,
                ..answer
            };
            let [whole_but_visited, left_but_visited] = [whole, of_left].map(without_visited);
            assert_eq!(whole_but_visited, left_but_visited, "seed {seed} {key:?}");
            assert!(of_left.visited <= whole.visited);
            if whole.number == 0 {
                accepted += 1;
                let record = &target[..whole.used as usize];
                let end = Outcome::decode(record, device.chain.len()).expect("a sound record");
                assert_eq!(
                    entries(&end, key),
                    entries(&start, key),
                    "seed {seed} {key:?}"
                );
            } else {
                refused += 1;
            }
        }
    }
    assert!(accepted > 1_000 && refused > 300, "{accepted} {refused}");
}
