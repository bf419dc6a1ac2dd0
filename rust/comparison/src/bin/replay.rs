//! Replays a case from its files and prints what each engine gives.

use std::env;
use std::path::Path;
use std::process::ExitCode;

use comparison::Linked;
use reference::case_files::read_case;
use reference::compare::{first_difference, replies, Engine, Operation, Reference, Reply};
use reference::generate::Case;
use reference::outcome::Edition;
use reference::run_list::RunList;
use reference::sheet_form::show_sheet;
use reference::text_form::{show_device, show_outcome, show_run_list};
use reference::{Device, Outcome, Sheet};

fn main() -> ExitCode {
    let arguments: Vec<String> = env::args().skip(1).collect();
    let [directory] = &arguments[..] else {
        eprintln!(
            "usage: replay DIRECTORY\n\nThe directory holds text, device, outcome, sheet and rooms."
        );
        return ExitCode::from(2);
    };
    let case = match read_case(Path::new(directory)) {
        Ok(case) => case,
        Err(error) => {
            eprintln!("{directory}: {error}");
            return ExitCode::from(2);
        }
    };
    show_case(&case);
    let mut answered = Vec::new();
    for (name, engine) in engines() {
        println!("== {name}");
        let replies = replies(engine, &case);
        show_replies(&case, &replies);
        answered.push(replies);
    }
    if let [left, right] = &answered[..] {
        if let Some(difference) = first_difference(left, right) {
            println!("== first difference\n{difference}");
            return ExitCode::FAILURE;
        }
        println!("== no difference");
    }
    ExitCode::SUCCESS
}

fn engines() -> [(&'static str, &'static dyn Engine); 2] {
    [("reference", &Reference), ("linked", &Linked)]
}

fn show_case(case: &Case) {
    println!("== text\n{}", String::from_utf8_lossy(&case.text));
    let device = Device::decode(&case.device);
    match &device {
        Some(device) => print!("== device\n{}", show_device(device)),
        None => println!("== device: faulty\n{}", hexadecimal(&case.device)),
    }
    let chain_length = device.map_or(0, |device| device.chain.len());
    match Outcome::decode(&case.outcome, chain_length) {
        Some(outcome) => print!("== outcome\n{}", show_outcome(&outcome)),
        None => println!("== outcome: faulty\n{}", hexadecimal(&case.outcome)),
    }
    match Sheet::decode(&case.sheet) {
        Some(sheet) => print!("== sheet\n{}", show_sheet(&sheet)),
        None => println!("== sheet: faulty\n{}", hexadecimal(&case.sheet)),
    }
    println!("== rooms\n{:?}", case.rooms);
}

fn show_replies(case: &Case, replies: &[Reply]) {
    let chain_length = Device::decode(&case.device).map_or(0, |device| device.chain.len());
    for reply in replies {
        let record = reply.record();
        println!("{:?} {:?}", reply.operation, reply.answer);
        for (position, answer) in (1..).zip(reply.answers()) {
            println!("    record {position} {answer:?}");
        }
        for strike in reply.strikes() {
            println!("    line {} struck for {}", strike[0], strike[1]);
        }
        if record.is_empty() {
            continue;
        }
        let shown = match reply.operation {
            Operation::Close | Operation::CloseAfterRun => {
                RunList::decode(record).map(|run_list| show_run_list(&run_list))
            }
            Operation::Write
            | Operation::WriteAgain
            | Operation::Plan
            | Operation::Strike
            | Operation::StrikeAgain => Some(String::from_utf8_lossy(record).into_owned()),
            Operation::Contest | Operation::RunEach => None,
            Operation::Older | Operation::OlderAfterNewer => {
                Outcome::decode_edition(Edition::First, record, chain_length)
                    .map(|outcome| show_outcome(&outcome))
            }
            Operation::Check
            | Operation::PlanCheck
            | Operation::PlanCheckOwn
            | Operation::PlanCheckReference
            | Operation::PlanCheckByReference
            | Operation::CheckStruck
            | Operation::Fresh
            | Operation::Run
            | Operation::RunFiles
            | Operation::RunFilesPermuted
            | Operation::Newer
            | Operation::NewerAfterOlder => {
                Outcome::decode(record, chain_length).map(|outcome| show_outcome(&outcome))
            }
        };
        print!(
            "{}",
            indented(&shown.unwrap_or_else(|| hexadecimal(record)))
        );
    }
}

fn indented(text: &str) -> String {
    text.lines().map(|line| format!("    {line}\n")).collect()
}

fn hexadecimal(bytes: &[u8]) -> String {
    let lines: Vec<String> = bytes
        .chunks(32)
        .map(|chunk| chunk.iter().map(|byte| format!("{byte:02x}")).collect())
        .collect();
    lines.join("\n")
}
