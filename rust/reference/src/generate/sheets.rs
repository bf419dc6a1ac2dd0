//! Generated answer sheets, and pairs that ask what is on them.

use super::pairs::{judged_pair, pair, template};
use super::rng::Rng;
use super::world::{value, World};
use crate::device::{Device, NO_PLACE};
use crate::key::Operator;
use crate::outcome::Outcome;
use crate::sheet::{Sheet, SheetEntry};
use crate::sizes;
use crate::template::{Inserted, Sources, Template};

use Operator::{Add, Assign, AssignFinally, Equal, Unequal};

const COMMANDS: &[&[u8]] = &[
    b"/bin/serial",
    b"probe %k",
    b"path_id %p",
    b"id %b $driver",
    b"/bin/x $attr{serial} -v",
    b"%E{A}$$",
    b"say  \"hi\"",
    b"a",
];

/// The value of a PROGRAM key that a sheet has an answer to, as the starting record stands.
pub struct Command {
    pub template: Vec<u8>,
    pub answer: SheetEntry,
}

pub fn commands(rng: &mut Rng, device: &Device, outcome: &Outcome) -> Vec<Command> {
    let mut commands: Vec<Command> = Vec::new();
    for _ in 0..rng.pick(&[0, 1, 2, 2, 3, 4]) {
        let template = if rng.percent(70) {
            rng.pick(COMMANDS).to_vec()
        } else {
            template(rng, device, outcome, &[b"/bin/x ", b"path_id", b" -v "])
        };
        add_command(rng, &mut commands, template, device, outcome);
    }
    // A command that inserts what another program says.
    if !commands.is_empty() && rng.percent(60) {
        let said = &rng.pick_ref(&commands).answer;
        let outcome = Outcome {
            output: said.output_without_trailing_newlines().to_vec(),
            ..outcome.clone()
        };
        let template = rng.pick(&[&b"next $result"[..], b"%c", b"$result%%"]);
        add_command(rng, &mut commands, template.to_vec(), device, &outcome);
    }
    commands
}

/// Adds the command unless there is one with the same text, or none can have it.
fn add_command(
    rng: &mut Rng,
    commands: &mut Vec<Command>,
    template: Vec<u8>,
    device: &Device,
    outcome: &Outcome,
) {
    let sources = Sources {
        device,
        properties: &outcome.properties,
        output: &outcome.output,
        matched: if rng.percent(70) {
            NO_PLACE
        } else {
            rng.between(1, device.chain.len())
        },
    };
    let read = Template::read(&template).expect("generated templates are well formed");
    let Some(command) = read.substitute(&sources, Inserted::AsItIs) else {
        return;
    };
    let is_there = commands.iter().any(|other| other.answer.command == command);
    if !command.is_empty() && !is_there {
        let answer = SheetEntry {
            command,
            success: rng.percent(75),
            output: output(rng),
        };
        commands.push(Command { template, answer });
    }
}

fn output(rng: &mut Rng) -> Vec<u8> {
    if rng.percent(3) {
        let mut output = vec![b'o'; rng.pick(&[200, sizes::OUTPUT - 1, sizes::OUTPUT])];
        output[199] = rng.pick(b"o\n");
        return output;
    }
    let end: &[u8] = rng.pick(&[&b""[..], b"", b"\n", b"\n", b"\n\n", b"\r\n", b" \n"]);
    [&value(rng), end].concat()
}

/// The sheet of the commands, now and then with others or as full as can be.
pub fn sheet(rng: &mut Rng, commands: &[Command]) -> Sheet {
    let mut entries: Vec<SheetEntry> = commands
        .iter()
        .map(|command| command.answer.clone())
        .collect();
    let others = match rng.below(100) {
        0..=79 => 0,
        80..=97 => rng.between(1, 3),
        _ => sizes::SHEET_ENTRIES - entries.len(),
    };
    for index in 0..others {
        entries.push(SheetEntry {
            command: format!("other{index}").into_bytes(),
            success: rng.percent(50),
            output: rng.pick(&[&b""[..], b"o", b"o\n"]).to_vec(),
        });
    }
    rng.shuffle(&mut entries);
    Sheet { entries }
}

/// PROGRAM keys, and RESULT keys that are judged on what these store.
pub fn asking_pairs(rng: &mut Rng, world: &World) -> Vec<Vec<u8>> {
    let mut output = world.outcome.output.clone();
    let mut pairs = Vec::new();
    for _ in 0..rng.pick(&[0, 1, 1, 1, 2]) {
        if world.commands.is_empty() || rng.percent(4) {
            pairs.push(odd_program_pair(rng, world));
            continue;
        }
        let command = rng.pick_ref(&world.commands);
        pairs.push(program_pair(rng, command));
        if command.answer.success {
            output = command.answer.output_without_trailing_newlines().to_vec();
        }
    }
    if pairs.is_empty() || rng.percent(50) {
        let holds = rng.percent(85);
        let result = judged_pair(rng, b"RESULT", Some(&output), holds);
        let place = rng.between(0, pairs.len());
        pairs.insert(place, result);
    }
    pairs
}

/// A PROGRAM key that mostly holds.
fn program_pair(rng: &mut Rng, command: &Command) -> Vec<u8> {
    let operator = if command.answer.success == rng.percent(85) {
        rng.pick(&[Equal, Equal, Assign, Add, AssignFinally])
    } else {
        Unequal
    };
    let written = as_template(&command.answer.command);
    let value = if written.len() <= sizes::VALUE && rng.percent(25) {
        &written
    } else {
        &command.template
    };
    pair(rng, b"PROGRAM", operator, value)
}

/// The template that inserts nothing and gives these bytes.
fn as_template(bytes: &[u8]) -> Vec<u8> {
    let doubled = |&byte: &u8| match byte {
        b'$' | b'%' => vec![byte; 2],
        _ => vec![byte],
    };
    bytes.iter().flat_map(doubled).collect()
}

/// A PROGRAM key whose command is mostly not on the sheet, or too long.
fn odd_program_pair(rng: &mut Rng, world: &World) -> Vec<u8> {
    let value = match rng.below(4) {
        0 => b"%p".repeat(128),
        1 => Vec::new(),
        2 => rng.pick(COMMANDS).to_vec(),
        _ => template(rng, &world.device, &world.outcome, &[b"/bin/x ", b"other0"]),
    };
    let operator = rng.pick(&[Equal, Unequal, Assign]);
    pair(rng, b"PROGRAM", operator, &value)
}
