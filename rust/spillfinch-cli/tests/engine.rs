//! What the command reads and lists by itself, beside the engine and the reference.

use std::path::PathBuf;

use reference::generate::case;
use spillfinch::{Rank, Refusal, Refused, RulesFile, EMPTY_SHEET};
use spillfinch_cli::check::{check, Subject};
use spillfinch_cli::listing::{list_each, refused};
use spillfinch_cli::syntax::line::read_line;
use spillfinch_cli::syntax::{lines, quote, Key, Line};

const CASES: u64 = 4_000;

/// A generated text, with joins at some places in every other one.
fn text(seed: u64) -> Vec<u8> {
    let mut text = case(seed).text;
    if seed % 2 == 0 {
        return text;
    }
    let mut place = seed as usize % 7;
    while place <= text.len() {
        text.splice(place..place, *b"\\\n");
        place += 3 + place * 5 % 83;
    }
    if seed % 16 == 1 {
        text.push(b'\\');
    }
    text
}

/// Of a line alone, with the newline behind it: the refusal that is about the line itself.
fn of_engine(line: &[u8]) -> Option<Refusal> {
    let Refused { refusal, .. } = spillfinch::check(&[line, b"\n"].concat()).err()?;
    (refusal != Refusal::LabelMissing).then_some(refusal)
}

#[test]
fn lines_are_read_as_the_engine_reads_them() {
    let mut faults = [0; 40];
    for seed in 0..CASES {
        for line in lines(&text(seed)) {
            if line.lent.len() >= 32_768 {
                continue;
            }
            let read = line.read();
            let found = read.fault.as_ref().map(|fault| fault.refusal);
            let shown = String::from_utf8_lossy(line.lent);
            assert_eq!(found, of_engine(line.lent), "seed {seed}: {shown}");
            if let Some(fault) = read.fault {
                assert!(fault.span.end <= line.joined().len(), "{shown}");
                assert!(!fault.span.is_empty(), "{shown}");
                let place = line.place(Some(&fault.span));
                assert!(place.span.end <= place.bytes.len(), "{shown}");
                assert!(!place.span.is_empty(), "{shown}");
                faults[fault.refusal.number() as usize] += 1;
            }
        }
    }
    for number in (10..18).chain([20]) {
        let count = faults[number];
        assert!(count > 20, "{number}: {count} faults");
    }
}

/// A text with its faulty lines emptied is accepted, and each was refused in its turn.
#[test]
fn every_fault_is_found() {
    for seed in 0..CASES {
        let text = text(seed);
        let checked = check(PathBuf::new(), text.clone(), &[]);
        let faults = checked
            .remarks
            .iter()
            .filter_map(|remark| match remark.subject {
                Subject::Fault(refusal) => Some((remark.line, refusal)),
                Subject::Warning(_) => None,
            });
        let faults: Vec<_> = faults.collect();
        assert!(faults.windows(2).all(|pair| pair[0].0 < pair[1].0));
        match spillfinch::check(&text) {
            Ok(()) => assert!(faults.is_empty()),
            Err(first) => assert!(faults.contains(&(first.line, first.refusal))),
        }
        if faults.first().is_some_and(|fault| fault.0 == 0) {
            continue;
        }
        let is_faulty = |line: u32| faults.iter().any(|fault| fault.0 == line);
        let kept = |line: &Line| match is_faulty(line.number) {
            true => vec![b'\n'; line.newlines()],
            false => line.lent.to_vec(),
        };
        let kept: Vec<Vec<u8>> = lines(&text).iter().map(kept).collect();
        assert_eq!(spillfinch::check(&kept.join(&b'\n')), Ok(()), "seed {seed}");
    }
}

#[test]
fn listings_are_those_of_the_reference() {
    for seed in 0..CASES {
        let (other, case) = (case(seed + 1), case(seed));
        let devices = [&other.device[..], &case.device];
        for (start, sheet) in [
            (None, None),
            (Some(&case.outcome[..]), Some(&case.sheet[..])),
        ] {
            let files = [RulesFile {
                rank: Rank::Etc,
                name: b"",
                text: &case.text,
            }];
            let listed = list_each(&files, &devices, start, sheet);
            assert_eq!(listed.len(), devices.len());
            for (listed, device) in listed.into_iter().zip(devices) {
                let listing = match listed {
                    Ok(listed) => listed.listing,
                    Err(found) => refused(&files, &found),
                };
                let expected = reference::listing(&case.text, device, start, sheet);
                assert_eq!(listing, String::from_utf8_lossy(&expected), "seed {seed}");
            }
        }
    }
}

/// A rule of the pair alone holds of the device that it was written for.
#[test]
fn quoted_pairs_hold() {
    let mut written = 0;
    for seed in 0..CASES {
        let record = case(seed).device;
        let Ok(start) = spillfinch::fresh(&record) else {
            continue;
        };
        let device = recordings::Device::decode(&record).expect("a sound record");
        let mut pairs = vec![
            (Key::Action, &b""[..], device.action.name().as_bytes()),
            (Key::Devpath, b"", &device.chain[0].path),
            (Key::Kernel, b"", device.chain[0].name()),
            (Key::Subsystem, b"", &device.chain[0].subsystem),
        ];
        for property in &device.properties {
            pairs.push((Key::Env, &property.name, &property.value));
        }
        for attribute in &device.chain[0].attributes {
            pairs.push((Key::Attr, &attribute.name, &attribute.value));
        }
        for parent in &device.chain {
            pairs.push((Key::Kernels, b"", parent.name()));
            pairs.push((Key::Subsystems, b"", &parent.subsystem));
            if !parent.driver.is_empty() {
                pairs.push((Key::Drivers, b"", &parent.driver));
            }
            for attribute in &parent.attributes {
                pairs.push((Key::Attrs, &attribute.name, &attribute.value));
            }
        }
        for (key, argument, value) in pairs {
            let Ok(mut rule) = quote::pair(key, argument, value) else {
                continue;
            };
            written += 1;
            rule.extend_from_slice(b", OPTIONS=\"link_priority=7\"");
            let shown = String::from_utf8_lossy(&rule).into_owned();
            let ran = spillfinch::run(&rule, &record, &start, EMPTY_SHEET);
            let ran = ran.unwrap_or_else(|refused| panic!("{shown}: {refused}"));
            let outcome = recordings::Outcome::decode(&ran.record).expect("a record");
            assert_eq!(outcome.priority, 7, "seed {seed}: {shown}");
        }
    }
    assert!(written > 10_000, "{written} pairs");
}

/// Every value of up to three parts behind an `e`, whole and damaged: refused as the engine
/// refuses it, or with the bytes that the engine stores.
#[test]
fn values_behind_an_e_are_read_as_the_engine_reads_them() {
    const PARTS: [&str; 15] = [
        "\\", "\"", "x", "0", "4", "1a", "n", "\\x41", "\\\\", "\\\"", "\\n", "[", "$", " ", "\t",
    ];
    let record = packed_device();
    let start = spillfinch::fresh(&record).expect("a sound record");
    for seed in 0..PARTS.len().pow(3) {
        let places = [seed, seed / PARTS.len(), seed / PARTS.len().pow(2)];
        let written: String = places.map(|place| PARTS[place % PARTS.len()]).concat();
        for pair in ["ENV{a}=", "KERNEL==", "SYMLINK=", "LABEL="] {
            let line = format!("{pair}e\"{written}\"");
            let read = read_line(line.as_bytes());
            let found = read.fault.map(|fault| fault.refusal);
            assert_eq!(found, of_engine(line.as_bytes()), "{line}");
        }
        let line = format!("ENV{{a}}=e\"{written}\"");
        if let Ok(ran) = spillfinch::run(line.as_bytes(), &record, &start, EMPTY_SHEET) {
            let outcome = recordings::Outcome::decode(&ran.record).expect("a record");
            let value = &read_line(line.as_bytes()).pairs[0].value.bytes;
            assert_eq!(&outcome.properties[0].value, value, "{line}");
        }
    }
}

/// The device /a of no subsystem, without properties.
fn packed_device() -> Vec<u8> {
    let device = recordings::Device {
        action: recordings::Action::of_name(b"add").expect("an action"),
        node: None,
        properties: Vec::new(),
        chain: vec![recordings::ChainDevice {
            path: b"/a".to_vec(),
            subsystem: Vec::new(),
            driver: Vec::new(),
            attributes: Vec::new(),
        }],
    };
    device.encode().expect("a small record")
}

#[test]
fn places_of_faults_in_a_value_behind_an_e() {
    for (line, span) in [
        ("KERNEL==e\"\\x41[z-a]\"", 15..18),
        ("KERNEL==e\"ab\\q\"", 12..14),
        ("KERNEL==e\"\\x00\"", 10..14),
        ("KERNEL==e\"a", 9..10),
        ("KERNEL==e \"a\"", 8..9),
    ] {
        let fault = read_line(line.as_bytes()).fault.expect("a fault");
        assert_eq!(fault.span, span, "{line}");
    }
}
