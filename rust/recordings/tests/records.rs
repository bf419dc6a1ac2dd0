//! Packed records and text forms beside those of the reference.

use recordings::form::{
    read_device, read_outcome, read_sheet, write_device, write_outcome, write_sheet,
};
use recordings::outcome::{Command, RunType};
use recordings::{Device, Outcome, Reply, RunList, Sheet};
use reference::generate::case;
use reference::{sheet_form, text_form};

const CASES: u64 = 20_000;

#[test]
fn device_records() {
    let mut sound = 0;
    for seed in 0..CASES {
        let record = case(seed).device;
        let decoded = Device::decode(&record);
        let Some(judged) = reference::Device::decode(&record) else {
            // Whatever is made of a faulty record, it is made without a fault.
            decoded.and_then(|device| device.encode());
            continue;
        };
        sound += 1;
        let device = decoded.expect("a sound record is decoded");
        assert_eq!(device.encode().as_ref(), Some(&record), "seed {seed}");
        let form = write_device(&device);
        assert_eq!(form, text_form::show_device(&judged), "seed {seed}");
        let read = read_device(form.as_bytes());
        assert_eq!(read, Ok(device), "seed {seed}:\n{form}");
    }
    assert!(sound > CASES / 2, "{sound} sound records");
}

#[test]
fn outcome_records() {
    let mut sound = 0;
    for seed in 0..CASES {
        let record = case(seed).outcome;
        let decoded = Outcome::decode(&record);
        let Some(judged) = reference::Outcome::decode(&record, 16) else {
            decoded.and_then(|outcome| outcome.encode());
            continue;
        };
        sound += 1;
        let outcome = decoded.expect("a sound record is decoded");
        assert_eq!(outcome.encode().as_ref(), Some(&record), "seed {seed}");
        let form = write_outcome(&outcome);
        assert_eq!(form, text_form::show_outcome(&judged), "seed {seed}");
        let read = read_outcome(form.as_bytes());
        assert_eq!(read, Ok(outcome), "seed {seed}:\n{form}");
    }
    assert!(sound > CASES / 2, "{sound} sound records");
}

#[test]
fn answer_sheets() {
    let mut sound = 0;
    for seed in 0..CASES {
        let packed = case(seed).sheet;
        let decoded = Sheet::decode(&packed);
        let Some(judged) = reference::Sheet::decode(&packed) else {
            decoded.and_then(|sheet| sheet.encode());
            continue;
        };
        sound += 1;
        let sheet = decoded.expect("a sound sheet is decoded");
        assert_eq!(sheet.encode().as_ref(), Some(&packed), "seed {seed}");
        let form = write_sheet(&sheet);
        assert_eq!(form, sheet_form::show_sheet(&judged), "seed {seed}");
        let read = read_sheet(form.as_bytes());
        assert_eq!(read, Ok(sheet), "seed {seed}:\n{form}");
    }
    assert!(sound > CASES / 2, "{sound} sound sheets");
}

#[test]
fn a_sheet_by_hand() {
    let sheet = Sheet::decode(b"\x02\x80\x20\x10qab\x00\x20\x00x").expect("a sheet");
    let reply = |is_success, command: &[u8], output: &[u8]| Reply {
        is_success,
        command: command.to_vec(),
        output: output.to_vec(),
    };
    assert_eq!(
        sheet.replies,
        [reply(true, b"q", b"ab"), reply(false, b"x", b"")]
    );
    assert_eq!(Sheet::decode(b"\x00"), Some(Sheet::default()));
    assert_eq!(Sheet::default().encode(), Some(vec![0]));
    assert_eq!(Sheet::decode(b""), None);
    assert_eq!(Sheet::decode(b"\x01\x80\x20\x11qab"), None);
    assert_eq!(Sheet::decode(b"\x01\x80\x20\x10qa"), None);
    assert_eq!(Sheet::decode(b"\x00\x00"), None);
}

#[test]
fn run_lists() {
    let list = RunList::decode(b"\x10\x00\x20a\x80\x40bc").expect("a run list");
    let command = |run_type, text: &[u8]| Command {
        run_type,
        text: text.to_vec(),
    };
    let commands = [
        command(RunType::Program, b"a"),
        command(RunType::Builtin, b"bc"),
    ];
    assert_eq!(list.commands, commands);
    assert_eq!(RunList::decode(b""), None);
    assert_eq!(RunList::decode(b"\x08\x00\x20"), None);
    assert_eq!(RunList::decode(b"\x00\x00"), None);
}

#[test]
fn numbers_that_do_not_fit() {
    let form = b"device /a\n  subsystem b\n";
    let mut device = read_device(form).expect("a sound form");
    assert!(device.encode().is_some());
    device.chain[0].subsystem = vec![b'x'; 64];
    assert_eq!(device.encode(), None);
    device.chain.clear();
    assert_eq!(device.encode(), None);
}
