//! The texts that the benchmark runs, and the device that it runs them on.

use reference::device::Device;
use reference::generate::{fullest, Case, Extra, Rooms};
use reference::sheet::SheetEntry;
use reference::text_form::parse_device;
use reference::{sizes, Outcome, Sheet};

pub struct Workload {
    pub name: &'static str,
    pub text: Vec<u8>,
    /// The record that its run starts from.
    pub outcome: Outcome,
    /// What its programs say.
    pub sheet: Sheet,
}

impl Workload {
    pub fn rules(&self) -> usize {
        self.text.iter().filter(|&&byte| byte == b'\n').count()
    }

    /// Its run on the counter, with the room that the records need.
    pub fn case(&self) -> Case {
        Case {
            shape: self.name.to_string(),
            text: self.text.clone(),
            device: counter().encode(),
            outcome: self.outcome.encode(),
            sheet: self.sheet.encode(),
            rooms: Rooms {
                fresh: sizes::OUTCOME_TARGET,
                run: sizes::OUTCOME_TARGET,
                close: sizes::RUN_LIST_TARGET,
            },
            extra: Extra::Nothing,
        }
    }
}

/// A counter on a serial port, with a chain of 4 devices.
pub fn counter() -> Device {
    let form = include_bytes!("../../../examples/devices/counter.device");
    parse_device(form).expect("the form describes a sound device")
}

pub fn all_workloads() -> impl Iterator<Item = Workload> {
    workloads().into_iter().chain(family())
}

/// Texts of 512 rules with few keys, then jumps, then texts that ask little of a reader and much of what the engine does
/// beside reading, then small texts.
pub fn workloads() -> Vec<Workload> {
    vec![
        plain_miss(),
        plain_hit(),
        plain_three(),
        parents_miss(),
        glob_miss(),
        site(),
        jumps_far(),
        jumps_alike(),
        jumps_one_hash(),
        jumps_nowhere(),
        jumps_over(),
        short_lines(),
        short_pairs(),
        full_record(),
        programs(),
        one_rule(),
        ten_rules(),
        full_start(),
    ]
}

/// One family of texts at 8, 16 and 32 KB. Each rule has 64 bytes.
pub fn family() -> Vec<Workload> {
    [("site_8k", 128), ("site_16k", 256), ("site_32k", 512)]
        .into_iter()
        .map(|(name, rules)| {
            workload(
                name,
                text_of(rules, |i| {
                    format!(
                        r#"KERNEL=="ttyUSB[0-9]*",ATTRS{{serial}}=="RC-{i:04}",SYMLINK+="t{i:03}""#
                    )
                }),
            )
        })
        .collect()
}

fn text_of(rules: usize, rule: impl Fn(usize) -> String) -> Vec<u8> {
    (0..rules)
        .flat_map(|i| (rule(i) + "\n").into_bytes())
        .collect()
}

fn workload(name: &'static str, text: Vec<u8>) -> Workload {
    Workload {
        name,
        text,
        outcome: Outcome::fresh(&counter()),
        sheet: Sheet::default(),
    }
}

fn full_text(name: &'static str, rule: impl Fn(usize) -> String) -> Workload {
    workload(name, text_of(sizes::RULES, rule))
}

/// One plain comparison a rule; none holds.
fn plain_miss() -> Workload {
    full_text("plain_miss", miss)
}

fn miss(i: usize) -> String {
    link_of(&format!("ttyACM{i:03}"), &format!("t{i:03}"))
}

fn link_of(kernel: &str, link: &str) -> String {
    format!(r#"KERNEL=="{kernel}", SYMLINK+="rope/{link}""#)
}

/// One plain comparison a rule; all hold, and a property is rewritten each time.
fn plain_hit() -> Workload {
    full_text("plain_hit", |i| {
        format!(r#"KERNEL=="ttyUSB0", ENV{{STEP}}="{i:03}""#)
    })
}

/// Three plain comparisons a rule; the first two hold, the third does not.
fn plain_three() -> Workload {
    full_text("plain_three", |i| {
        format!(r#"SUBSYSTEM=="tty",KERNEL=="ttyUSB0",ACTION=="{i:03}",TAG+="t""#)
    })
}

/// A plain comparison of a parent's attribute, tried at all 4 devices; none holds.
fn parents_miss() -> Workload {
    full_text("parents_miss", |i| {
        format!(r#"ATTRS{{serial}}=="RC-{i:04}x", SYMLINK+="rope/t%n""#)
    })
}

/// Patterns with a set and a star; none holds.
fn glob_miss() -> Workload {
    full_text("glob_miss", |i| {
        format!(r#"KERNEL=="tty[A-R]*{i:03}", SYMLINK+="rope/t%n""#)
    })
}

/// A site's file: a pattern, a parent's attribute and a link; one rule of all holds.
fn site() -> Workload {
    full_text("site", |i| {
        format!(r#"KERNEL=="ttyUSB*",ATTRS{{serial}}=="RC-{i:04}",SYMLINK+="t{i}""#)
    })
}

/// 256 jumps that are not taken, then their labels, the first jump's last.
fn jumps_far() -> Workload {
    let half = sizes::RULES / 2;
    let label = |i| format!("rope_counter_station_{i:04}");
    workload(
        "jumps_far",
        text_of(sizes::RULES, |i| {
            if i < half {
                format!(r#"KERNEL=="x",GOTO="{}""#, label(i))
            } else {
                format!(r#"KERNEL=="t*",LABEL="{}""#, label(sizes::RULES - 1 - i))
            }
        }),
    )
}

/// 128 jumps that are not taken, all to the last of 128 labels that begin alike and have one hash.
fn jumps_alike() -> Workload {
    let half: usize = 128;
    let label = |i: usize| {
        let block = |bit: usize| BLOCKS_OF_ONE_HASH[i >> bit & 1];
        let blocks: String = (0..7).rev().map(block).collect();
        format!("{:_<66}{blocks}", "rope")
    };
    workload(
        "jumps_alike",
        text_of(2 * half, |i| {
            if i < half {
                format!(r#"TAG=="x",GOTO="{}""#, label(half - 1))
            } else {
                format!(r#"LABEL="{}""#, label(i - half))
            }
        }),
    )
}

/// 256 jumps that are not taken, all to the last of 256 labels of 51 bytes that differ in the middle and have one hash:
/// the slowest arrangement that is known.
fn jumps_one_hash() -> Workload {
    let labels = labels_of_one_hash();
    let last = labels.len() - 1;
    workload("jumps_one_hash", text_of_jumps(&labels[last], &labels))
}

/// 255 jumps to a label that is not there, before 255 others with its hash. The first is refused.
fn jumps_nowhere() -> Workload {
    let labels = labels_of_one_hash();
    let (missing, others) = labels.split_last().expect("there are 256");
    workload("jumps_nowhere", text_of_jumps(missing, others))
}

/// As many jumps to a label as there are labels, then the labels.
fn text_of_jumps(label: &str, labels: &[String]) -> Vec<u8> {
    text_of(2 * labels.len(), |i| {
        if i < labels.len() {
            format!(r#"TAG=="x",GOTO="{label}""#)
        } else {
            format!(r#"LABEL="{}""#, labels[i - labels.len()])
        }
    })
}

/// One jump that is taken, over 510 rules, to the last.
fn jumps_over() -> Workload {
    workload(
        "jumps_over",
        text_of(sizes::RULES, |i| match i {
            0 => String::from(r#"GOTO="end""#),
            511 => String::from(r#"LABEL="end",TAG+="t""#),
            _ => format!(r#"KERNEL=="ttyUSB*",ATTRS{{serial}}=="RC-{i:04}",SYMLINK+="t{i}""#),
        }),
    )
}

/// Comments of no bytes.
fn short_lines() -> Workload {
    workload("short_lines", text_of(16_384, |_| String::from("#")))
}

/// As many lines with a fault as a text can have.
pub fn faulty_lines() -> Vec<u8> {
    text_of(16_384, |_| String::from("x"))
}

/// Four assignments a rule, of one letter each.
fn short_pairs() -> Workload {
    workload(
        "short_pairs",
        text_of(sizes::RULES, |_| {
            String::from(r#"TAG+="a",TAG+="b",TAG+="c",TAG+="d""#)
        }),
    )
}

/// A record that is filled, then a link that comes and goes before all that was filled in.
fn full_record() -> Workload {
    let properties = 28;
    let filled = properties + sizes::TAGS + sizes::RUNS;
    workload(
        "full_record",
        text_of(sizes::RULES, |i| {
            if i < properties {
                format!(r#"ENV{{FILLED_{i:057}}}="{i:0256}""#)
            } else if i < properties + sizes::TAGS {
                format!(r#"TAG+="{i:064}""#)
            } else if i < filled {
                format!(r#"RUN+="{i:0256}""#)
            } else {
                String::from(r#"SYMLINK+="x",SYMLINK-="x""#)
            }
        }),
    )
}

/// One command a rule, each of the 64 of a full sheet in turn; all succeed.
fn programs() -> Workload {
    let text = text_of(sizes::RULES, |i| {
        let command = command(i % sizes::SHEET_ENTRIES);
        format!(r#"PROGRAM=="{command}", TAG+="t""#)
    });
    Workload {
        sheet: full_sheet(),
        ..workload("programs", text)
    }
}

fn command(number: usize) -> String {
    format!("/usr/bin/say {number:02}")
}

/// As many entries as there may be, with outputs that fill the sheet.
fn full_sheet() -> Sheet {
    let entry = |number: usize| SheetEntry {
        command: command(number).into_bytes(),
        success: true,
        output: vec![b'o'; if number == 0 { 493 } else { 494 }],
    };
    Sheet {
        entries: (0..sizes::SHEET_ENTRIES).map(entry).collect(),
    }
}

/// One rule, which holds.
fn one_rule() -> Workload {
    workload("one_rule", text_of(1, |_| link_of("ttyUSB0", "t0")))
}

fn ten_rules() -> Workload {
    workload("ten_rules", text_of(10, miss))
}

/// One rule, which does not hold, from a record that is full. The names of a list differ in their last bytes only.
fn full_start() -> Workload {
    Workload {
        outcome: fullest(),
        ..workload("full_start", text_of(1, miss))
    }
}

/// The hash of labels (crate `jumps`) does not tell these apart, wherever they stand in a name.
const BLOCKS_OF_ONE_HASH: [&str; 2] = ["qhtxcgf", "kmygxnq"];

/// Nor these 256 names.
fn labels_of_one_hash() -> Vec<String> {
    let middles = include_str!("labels_of_one_hash.txt").lines();
    middles
        .map(|middle| format!("{:_<22}{middle}{:_>22}", "rope", "station"))
        .collect()
}

#[cfg(test)]
mod tests {
    use super::*;
    use std::collections::HashSet;

    /// As crate `jumps` has it.
    fn hash_of(name: &str) -> u16 {
        name.bytes().fold(0, |hash: u16, byte| {
            hash.wrapping_mul(403).wrapping_add(byte.into())
        })
    }

    #[test]
    fn blocks_have_one_hash() {
        let [zero, one] = BLOCKS_OF_ONE_HASH.map(hash_of);
        assert_eq!(zero, one);
    }

    #[test]
    fn labels_have_one_hash() {
        let labels: HashSet<String> = labels_of_one_hash().into_iter().collect();
        let hashes: HashSet<u16> = labels.iter().map(|label| hash_of(label)).collect();
        assert_eq!((labels.len(), hashes.len()), (256, 1));
    }

    #[test]
    fn all_texts_run_but_one() {
        let device = counter().encode();
        let target = &mut [0; sizes::OUTCOME_TARGET];
        for workload in all_workloads() {
            let Workload {
                name,
                text,
                outcome,
                sheet,
            } = workload;
            let answer = reference::run(&text, &device, &outcome.encode(), &sheet.encode(), target);
            let refused = if name == "jumps_nowhere" { 19 } else { 0 };
            assert_eq!(answer.number, refused, "{name}");
        }
    }

    #[test]
    fn the_sheet_of_the_programs_is_full() {
        let packed = full_sheet().encode();
        assert_eq!(packed.len(), sizes::SHEET);
        assert_eq!(Sheet::decode(&packed), Some(full_sheet()));
    }

    #[test]
    fn lengths_are_those_of_the_figures() {
        let lengths: Vec<usize> = workloads().iter().map(|w| w.text.len()).take(6).collect();
        assert_eq!(lengths, [21_504, 17_920, 29_696, 24_064, 22_528, 30_098]);
        let lengths: Vec<usize> = family().iter().map(|w| w.text.len()).collect();
        assert_eq!(lengths, [8_192, 16_384, 32_768]);
    }
}
