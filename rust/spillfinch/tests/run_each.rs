//! One text for many devices, beside its run for each alone.

use spillfinch::calls::{self, Answer};
use spillfinch::{
    contest, fresh, run, run_each, sizes, Held, Ran, RecordPair, Refusal, Refused, EMPTY_SHEET,
};

const RULES: &[u8] = b"SYMLINK+=\"counter%n\"\n\
    KERNEL==\"ttyUSB7\", OPTIONS+=\"link_priority=1\"\n\
    KERNEL==\"ttyUSB8\", TAG+=\"eight\"\n";

/// One of a hundred devices without parents: the second digit is that of its kernel name.
fn device(number: usize) -> Vec<u8> {
    let head = b"\x10\x10\xbc\x00\x00\x00\x00\x0a\x86\x00\x00";
    let path = format!("/devices/usb{}/ttyUSB{}", number / 10, number % 10);
    [head, path.as_bytes(), b"tty"].concat()
}

type Records = Vec<(Vec<u8>, Vec<u8>)>;
type Runs = Vec<Result<Ran, Refused>>;

/// Devices with their fresh records.
fn devices(count: usize) -> Records {
    let pair = |number| {
        let device = device(number % 100);
        let outcome = fresh(&device).expect("a sound device");
        (device, outcome)
    };
    (0..count).map(pair).collect()
}

fn pairs(records: &Records) -> impl Iterator<Item = RecordPair<'_>> {
    records
        .iter()
        .map(|(device, outcome)| RecordPair { device, outcome })
}

fn each(text: &[u8], records: &Records, sheet: &[u8]) -> Runs {
    run_each(text, pairs(records), sheet).collect()
}

fn each_alone(text: &[u8], records: &Records, sheet: &[u8]) -> Runs {
    pairs(records)
        .map(|pair| run(text, pair.device, pair.outcome, sheet))
        .collect()
}

fn refused(refusal: Refusal, line: u32) -> Result<Ran, Refused> {
    Err(Refused { refusal, line })
}

#[test]
fn one_faulty_among_64() {
    let mut records = devices(64);
    records[40].0.pop();
    let runs = each(RULES, &records, EMPTY_SHEET);
    assert_eq!(runs, each_alone(RULES, &records, EMPTY_SHEET));
    assert_eq!(runs[40], refused(Refusal::DeviceBad, 0));
    assert_eq!(runs.iter().filter(|run| run.is_ok()).count(), 63);
    records[40] = records[41].clone();
    records[63].1.push(0);
    let runs = each(RULES, &records, EMPTY_SHEET);
    assert_eq!(runs[40], runs[41]);
    assert_eq!(runs[63], refused(Refusal::OutcomeBad, 0));
    assert_eq!(runs.iter().filter(|run| run.is_ok()).count(), 63);
}

#[test]
fn every_byte_of_64() {
    let mut records = devices(64);
    records[7].1.clear();
    let mut set = vec![64];
    for bytes in records
        .iter()
        .flat_map(|(device, outcome)| [device, outcome])
    {
        set.extend((bytes.len() as u16).to_be_bytes());
        set.extend(bytes);
    }
    let room = sizes::OUTCOME_ROOM;
    let mut targets = vec![0xAA; 64 * room + 9];
    let mut answers = vec![0xAAAA; 64 * 8 + 3];
    let mut answer = [0xAAAA; 8];
    calls::run_each(
        RULES,
        &set,
        EMPTY_SHEET,
        &mut targets,
        &mut answers,
        &mut answer,
    );
    assert_eq!(answer, [0, 0, 0, 0, 0, 0, 64, 0]);
    for (place, (device, outcome)) in records.iter().enumerate() {
        let mut target = vec![0xAA; room];
        let mut alone: Answer = [0xAAAA; 8];
        calls::run(RULES, device, outcome, EMPTY_SHEET, &mut target, &mut alone);
        assert!(targets[place * room..][..room] == target, "target {place}");
        assert_eq!(answers[place * 8..][..8], alone, "answer {place}");
    }
    assert_eq!(targets[64 * room..], [0; 9]);
    assert_eq!(answers[64 * 8..], [0; 3]);
}

#[test]
fn a_refused_text_in_all_answers() {
    let mut records = devices(64);
    records[3].0.clear();
    let runs = each(b"\nGOTO=\"a\"", &records, EMPTY_SHEET);
    assert_eq!(runs, vec![refused(Refusal::LabelMissing, 2); 64]);
    let runs = each(&[b'#'; 32_769], &records, EMPTY_SHEET);
    assert_eq!(runs, vec![refused(Refusal::TextLong, 0); 64]);
    let runs = each(RULES, &records, b"");
    assert_eq!(runs[3], refused(Refusal::DeviceBad, 0));
    assert_eq!(runs[4..], vec![refused(Refusal::SheetBad, 0); 60]);
}

#[test]
fn groups_of_64() {
    for count in [0, 1, 63, 64, 65, 128, 200] {
        let mut records = devices(count);
        for place in [5, 64, 127] {
            if let Some((device, _)) = records.get_mut(place) {
                device.clear();
            }
        }
        let runs = each(RULES, &records, EMPTY_SHEET);
        assert_eq!(runs.len(), count);
        assert_eq!(runs, each_alone(RULES, &records, EMPTY_SHEET), "{count}");
    }
}

#[test]
fn another_order_gives_the_same_in_that_order() {
    let records = devices(64);
    let mut runs = each(RULES, &records, EMPTY_SHEET);
    let backwards: Vec<_> = records.into_iter().rev().collect();
    runs.reverse();
    assert_eq!(each(RULES, &backwards, EMPTY_SHEET), runs);
}

#[test]
fn a_record_that_no_set_can_hold() {
    let mut records = devices(70);
    records[2].0 = vec![0; 65_536];
    records[69].1 = vec![0; 65_536];
    let runs = each(RULES, &records, EMPTY_SHEET);
    assert_eq!(runs, each_alone(RULES, &records, EMPTY_SHEET));
    assert_eq!(runs[2], refused(Refusal::DeviceBad, 0));
    assert_eq!(runs[69], refused(Refusal::OutcomeBad, 0));
}

#[test]
fn what_is_left_is_ready_for_the_contest() {
    let records = devices(20);
    let runs: Result<Vec<Ran>, Refused> = run_each(RULES, pairs(&records), EMPTY_SHEET).collect();
    let runs = runs.expect("accepted runs");
    let claimants: Vec<RecordPair> = records
        .iter()
        .zip(&runs)
        .map(|((device, _), ran)| RecordPair {
            device,
            outcome: &ran.record,
        })
        .collect();
    let list = contest(&claimants).expect("sound records");
    let held: Vec<Held> = list.names().collect();
    assert_eq!(held.len(), 10);
    assert_eq!((held[0].name, held[0].holder), (&b"counter0"[..], 1));
    assert_eq!((held[7].name, held[7].holder), (&b"counter7"[..], 8));
    assert_eq!(held[7].others, [18]);
}
