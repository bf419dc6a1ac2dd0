//! The outcome record of edition 2, and the conversions: document 02, Item 5.

mod common;

use common::*;
use reference::compare::{replies, Operation, Reference};
use reference::generate::{case, Extra};
use reference::outcome::{Closed, Edition, Outcome, Run, RunType, Watch};
use reference::sheet::EMPTY;
use reference::sizes::{OLD_OUTCOME_TARGET, OUTCOME_TARGET, RUN_LIST_TARGET};
use reference::template::Template;
use reference::Answer;

type Conversion = fn(&[u8], &[u8], &mut [u8]) -> Answer;

/// The number and the record that a conversion gives.
fn converted(conversion: Conversion, device: &[u8], outcome: &[u8], room: usize) -> (u32, Vec<u8>) {
    let mut target = vec![0xAA; room];
    let answer = conversion(device, outcome, &mut target);
    assert_eq!((answer.line, answer.visited, answer.tried), (0, 0, 0));
    let (record, rest) = target.split_at(answer.used as usize);
    assert!(rest.iter().all(|&byte| byte == 0));
    assert!(answer.number == 0 || record.is_empty());
    (answer.number, record.to_vec())
}

fn newer(device: &[u8], outcome: &[u8]) -> (u32, Vec<u8>) {
    converted(reference::newer, device, outcome, OUTCOME_TARGET)
}

fn older(device: &[u8], outcome: &[u8]) -> (u32, Vec<u8>) {
    converted(reference::older, device, outcome, OLD_OUTCOME_TARGET)
}

fn some_outcome() -> Outcome {
    Outcome {
        closed: Closed {
            mode: true,
            ..Closed::default()
        },
        owner: Some(b"o".to_vec()),
        group: Some(b"gh".to_vec()),
        mode: Some(0o660),
        priority: -1,
        links: vec![b"a".to_vec()],
        properties: vec![property("K", "V")],
        tags: vec![b"t".to_vec()],
        runs: vec![run_at(2)],
        ..Outcome::default()
    }
}

fn run_at(place: usize) -> Run {
    Run {
        run_type: RunType::Program,
        matched: place,
        template: Template::read(b"%b").expect("a well formed template"),
    }
}

#[test]
fn the_header_is_two_bytes_longer() {
    let record = |output: &[u8], watch| {
        Outcome {
            output: output.to_vec(),
            watch,
            ..Outcome::default()
        }
        .encode()
    };
    let empty = [0x20, 0, 0, 0, 0, 0, 0, 0, 0, 0, 0];
    assert_eq!(record(b"", Watch::Unset), [&empty[..], &[0, 0]].concat());
    assert_eq!(record(b"", Watch::Watch), [&empty[..], &[0, 0x10]].concat());
    assert_eq!(
        record(b"", Watch::Nowatch),
        [&empty[..], &[0, 0x20]].concat()
    );
    assert_eq!(
        record(b"abc", Watch::Watch),
        [&empty[..], &[0, 0xD0], b"abc"].concat()
    );
    let full = record(&[b'p'; 512], Watch::Unset);
    assert_eq!(full[11..13], [0x80, 0]);
    assert_eq!(full.len(), 13 + 512);
    // The output comes before the owner.
    let outcome = Outcome {
        output: b"out".to_vec(),
        ..some_outcome()
    };
    assert_eq!(outcome.encode()[13..19], *b"outogh");
}

/// The number that run and close give for the record.
fn number(outcome: &[u8]) -> u32 {
    let device = tty_usb0().encode();
    let run = reference::run(b"", &device, outcome, EMPTY, &mut vec![0; OUTCOME_TARGET]);
    let close = reference::close(&device, outcome, &mut vec![0; RUN_LIST_TARGET]);
    assert_eq!(run.number, close.number);
    run.number
}

#[test]
fn what_is_faulty_in_edition_2() {
    let with_output = |output: &[u8]| {
        let outcome = Outcome {
            output: output.to_vec(),
            ..some_outcome()
        };
        number(&outcome.encode())
    };
    assert_eq!(with_output(b"a\n"), 0, "though no run leaves one");
    assert_eq!(with_output(&[b'p'; 512]), 0);
    assert_eq!(with_output(&[b'p'; 513]), 4);
    assert_eq!(with_output(b"a\0b"), 4);
    let changed = |change: fn(&mut Vec<u8>)| {
        let mut record = some_outcome().encode();
        change(&mut record);
        number(&record)
    };
    assert_eq!(changed(|_| {}), 0);
    assert_eq!(changed(|record| record[12] |= 0x10), 0);
    assert_eq!(changed(|record| record[12] |= 0x20), 0);
    assert_eq!(changed(|record| record[12] |= 0x30), 4);
    for bit in 0..4 {
        let mut record = some_outcome().encode();
        record[12] |= 1 << bit;
        assert_eq!(number(&record), 4);
    }
    for edition in [0, 1, 3, 4, 6, 10, 15] {
        let mut record = some_outcome().encode();
        record[0] = record[0] & 0x0f | edition << 4;
        assert_eq!(number(&record), 4, "edition {edition}");
    }
    assert_eq!(number(&some_outcome().encode_edition(Edition::First)), 4);
}

#[test]
fn conversions_by_hand() {
    let device = tty_usb0().encode();
    let old = some_outcome().encode_edition(Edition::First);
    let new = some_outcome().encode();
    let header = [
        0x10 | 0x00,
        0x41,
        0x0A,
        0x36,
        0x1F,
        0xFF,
        0xFF,
        0xFF,
        0xE1,
        0x04,
        0x21,
    ];
    assert_eq!(old[..11], header);
    assert_eq!(old[11..14], *b"ogh");
    assert_eq!(new[1..11], old[1..11]);
    assert_eq!((new[0], &new[11..13]), (0x20, &[0, 0][..]));
    assert_eq!(new[13..], old[11..]);
    assert_eq!(newer(&device, &old), (0, new.clone()));
    assert_eq!(older(&device, &new), (0, old.clone()));
    // Each reads its own edition only.
    assert_eq!(newer(&device, &new).0, 4);
    assert_eq!(older(&device, &old).0, 4);
}

#[test]
fn refusal_5() {
    let device = tty_usb0().encode();
    let number = |outcome: Outcome| older(&device, &outcome.encode()).0;
    let with_output = Outcome {
        output: b"x".to_vec(),
        ..some_outcome()
    };
    assert_eq!(number(with_output.clone()), 5);
    for watch in [Watch::Watch, Watch::Nowatch] {
        let outcome = Outcome {
            watch,
            ..some_outcome()
        };
        assert_eq!(number(outcome), 5);
    }
    assert_eq!(number(some_outcome()), 0);
    // A record that is faulty otherwise is 4.
    let beyond = Outcome {
        runs: vec![run_at(3)],
        ..with_output.clone()
    };
    assert_eq!(number(beyond), 4);
    let world_writable = Outcome {
        mode: Some(0o666),
        ..with_output
    };
    assert_eq!(number(world_writable), 4);
}

#[test]
fn the_order_of_refusals() {
    let device = tty_usb0().encode();
    let watched = Outcome {
        watch: Watch::Watch,
        ..Outcome::default()
    };
    let watched = watched.encode();
    for (conversion, room) in [
        (reference::newer as Conversion, OUTCOME_TARGET),
        (reference::older as Conversion, OLD_OUTCOME_TARGET),
    ] {
        assert_eq!(converted(conversion, b"", b"", room - 1).0, 1);
        assert_eq!(converted(conversion, b"", b"", 0).0, 1);
        assert_eq!(converted(conversion, b"", &watched, room).0, 3);
        assert_eq!(converted(conversion, &device, b"", room).0, 4);
    }
    assert_eq!(older(&device, &watched).0, 5);
    assert_eq!((OUTCOME_TARGET, OLD_OUTCOME_TARGET), (18_125, 17_611));
    // More room is fine.
    let old = some_outcome().encode_edition(Edition::First);
    assert_eq!(converted(reference::newer, &device, &old, 20_000).0, 0);
    // The device counts for the places.
    assert_eq!(newer(&device_at("/a").encode(), &old).0, 4);
    // A mode that lets others write is faulty here, too.
    let world_writable = Outcome {
        mode: Some(0o002),
        ..some_outcome()
    };
    assert_eq!(
        newer(&device, &world_writable.encode_edition(Edition::First)).0,
        4
    );
}

#[test]
fn there_and_back() {
    let mut back = [0, 0];
    for seed in 0..20_000 {
        let case = case(seed);
        let Extra::Convert { old, .. } = &case.extra else {
            continue;
        };
        for reply in replies(&Reference, &case) {
            let (first, count) = match reply.operation {
                Operation::OlderAfterNewer => (old, &mut back[0]),
                Operation::NewerAfterOlder => (&case.outcome, &mut back[1]),
                _ => continue,
            };
            if reply.number() == 0 {
                assert_eq!(reply.record(), first, "seed {seed}");
                *count += 1;
            }
        }
    }
    assert!(back.iter().all(|&count| count > 100), "{back:?}");
}

#[test]
fn watch_is_set_at_once_and_stays() {
    let device = device_at("/a");
    let watch = |text| outcome_of(text, &device).watch;
    assert_eq!(watch(""), Watch::Unset);
    assert_eq!(watch("OPTIONS=\"watch\""), Watch::Watch);
    assert_eq!(watch("OPTIONS+=\"nowatch\""), Watch::Nowatch);
    assert_eq!(
        watch("OPTIONS=\"watch\", OPTIONS+=\"nowatch\""),
        Watch::Nowatch
    );
    assert_eq!(
        watch("OPTIONS=\"nowatch\"\nOPTIONS=\"watch\"\nTAG=\"a\""),
        Watch::Watch
    );
    assert_eq!(watch("KERNEL==\"no\", OPTIONS=\"watch\""), Watch::Unset);
    assert_eq!(watch("OPTIONS=e\"\\x77atch\""), Watch::Watch);
    let (_, outcome) = run("OPTIONS=\"watch\"", &device);
    let (_, later) = run_on("TAG=\"a\"", &device, &outcome);
    assert_eq!(later.watch, Watch::Watch);
    // The other settings stay as they were.
    let text = "OPTIONS=\"string_escape=none\", OPTIONS=\"watch\", SYMLINK=\"a\tb\"";
    assert_eq!(links_of(text, &device), ["a\tb"]);
    assert_eq!(check("OPTIONS=\"watch \""), (15, 1));
    assert_eq!(check("OPTIONS:=\"watch\""), (13, 1));
}

#[test]
fn a_run_keeps_the_output() {
    let device = device_at("/a");
    let start = Outcome {
        output: b"said\n".to_vec(),
        ..Outcome::default()
    };
    let (_, outcome) = run_on("TAG=\"a\"", &device, &start);
    assert_eq!(outcome.output, b"said\n");
}

#[test]
fn the_listing_says_it_after_group() {
    let listing = |text: &[u8]| string(&reference::listing(text, &tty_usb0().encode(), None, None));
    assert_eq!(
        listing(b"OPTIONS=\"watch\", GROUP=\"g\", SYMLINK=\"l\""),
        "visited 1\ntried 0\npriority 0\ngroup g\nwatch\nlink l\n"
    );
    assert_eq!(
        listing(b"OPTIONS=\"nowatch\", MODE=\"5\""),
        "visited 1\ntried 0\npriority 0\nmode 0005\nnowatch\n"
    );
}
