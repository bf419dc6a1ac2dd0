//! Generated cases: a rules text, a device record, an outcome record, an answer sheet, target
//! lengths, and what else is asked for.

mod contest_edges;
mod damage;
mod each_edges;
mod edge_cases;
pub mod edges;
mod extra;
pub mod faults;
mod file_edges;
mod file_sets;
pub mod joins;
mod pairs;
mod patterns;
mod plan_edges;
mod plans;
pub mod record_sets;
pub mod rng;
mod rules_text;
mod sheet_edges;
mod sheets;
mod strike_edges;
mod struck;
mod vocabulary;
mod world;

use crate::key::{ArgumentRule, KeyRow, Operator, KEYS};
use crate::sizes;
use damage::{damage, damage_text, random_bytes};
pub use edge_cases::fullest;
use edges::{Edge, EDGES};
use extra::extra;
pub use extra::Extra;
use faults::FAULTY_PAIRS;
use pairs::{assignment_pair, pair};
use rng::Rng;
use rules_text::{joined_pairs, lines, rules_text};
use struck::text_to_strike;
use world::{world, World};

#[derive(Clone, Debug)]
pub struct Case {
    /// How the case was made.
    pub shape: String,
    pub text: Vec<u8>,
    pub device: Vec<u8>,
    pub outcome: Vec<u8>,
    pub sheet: Vec<u8>,
    pub rooms: Rooms,
    pub extra: Extra,
}

/// The lengths of the targets.
#[derive(Clone, Copy, Debug, PartialEq, Eq)]
pub struct Rooms {
    pub fresh: usize,
    pub run: usize,
    pub close: usize,
}

/// The case of a seed.
pub fn case(seed: u64) -> Case {
    let rng = &mut Rng::new(seed);
    let mut case = match rng.below(1_000) {
        0..=499 => meaningful(rng),
        500..=529 => return with_files(rng),
        530..=559 => return with_text_to_strike(rng),
        560..=659 => with_faulty_pair(rng),
        660..=709 => with_any_pairing(rng),
        710..=799 => return at_an_edge(rng),
        800..=859 => with_damaged_text(rng),
        860..=899 => with_damaged_device(rng),
        900..=939 => with_damaged_outcome(rng),
        940..=959 => with_damaged_sheet(rng),
        960..=979 => of_random_bytes(rng),
        _ => with_small_rooms(rng),
    };
    case.extra = extra(rng, &case);
    case
}

fn case_of(shape: &str, text: Vec<u8>, world: &World, rng: &mut Rng) -> Case {
    Case {
        shape: shape.to_string(),
        text,
        device: world.device.encode(),
        outcome: world.outcome.encode(),
        sheet: world.sheet.encode(),
        rooms: enough_room(rng),
        extra: Extra::Nothing,
    }
}

fn enough_room(rng: &mut Rng) -> Rooms {
    let more = if rng.percent(90) { 0 } else { rng.below(100) };
    Rooms {
        fresh: sizes::OUTCOME_TARGET + more,
        run: sizes::OUTCOME_TARGET + more,
        close: sizes::RUN_LIST_TARGET + more,
    }
}

fn meaningful(rng: &mut Rng) -> Case {
    let world = world(rng);
    let text = rules_text(rng, &world);
    case_of("meaningful", text, &world, rng)
}

fn with_faulty_pair(rng: &mut Rng) -> Case {
    let world = world(rng);
    let (_, faulty) = rng.pick(FAULTY_PAIRS);
    let mut pairs: Vec<Vec<u8>> = (0..rng.below(4))
        .map(|_| assignment_pair(rng, &world))
        .collect();
    pairs.insert(
        rng.between(0, pairs.len()),
        rng.pick(faulty).as_bytes().to_vec(),
    );
    let text = text_around(joined_pairs(rng, pairs), &world, rng);
    case_of("faulty pair", text, &world, rng)
}

/// The line among some others.
fn text_around(line: Vec<u8>, world: &World, rng: &mut Rng) -> Vec<u8> {
    let count = rng.below(3);
    let mut lines = lines(rng, world, count);
    lines.insert(rng.between(0, lines.len()), line);
    lines.join(&b'\n')
}

/// A key with an operator that may not be its own.
fn with_any_pairing(rng: &mut Rng) -> Case {
    let world = world(rng);
    let row = rng.pick_ref(&KEYS);
    let operator = rng.pick(&Operator::ALL);
    let mut pairs = vec![any_pair(rng, row, operator, &world)];
    if rng.percent(50) {
        pairs.push(assignment_pair(rng, &world));
    }
    let text = text_around(joined_pairs(rng, pairs), &world, rng);
    let shape = pairing_shape(row, operator);
    case_of(&shape, text, &world, rng)
}

fn any_pair(rng: &mut Rng, row: &KeyRow, operator: Operator, world: &World) -> Vec<u8> {
    let argument = match row.argument {
        ArgumentRule::None => "",
        ArgumentRule::Name => "{A}",
        ArgumentRule::RunTypeOrNone => rng.pick(&["", "{program}", "{builtin}"]),
    };
    let command = world.commands.first();
    let value = match row.name {
        "OPTIONS" => &b"string_escape=none"[..],
        "MODE" => b"0660",
        "PROGRAM" => command.map_or(&b"a"[..], |command| &command.template),
        _ => rng.pick(&[&b"a"[..], b"root", b"b"]),
    };
    let key = [row.name, argument].concat();
    pair(rng, key.as_bytes(), operator, value)
}

pub fn pairing_shape(row: &KeyRow, operator: Operator) -> String {
    format!("pairing {} {}", row.name, operator.symbol())
}

fn at_an_edge(rng: &mut Rng) -> Case {
    let edges: Vec<&Edge> = EDGES.iter().copied().flatten().collect();
    let edge = rng.pick(&edges);
    let mut case = (edge.build)(rng);
    case.shape = edge.name.to_string();
    case
}

fn with_files(rng: &mut Rng) -> Case {
    let world = world(rng);
    let text = rules_text(rng, &world);
    let mut case = case_of("files", text, &world, rng);
    match rng.below(30) {
        0 => damage(rng, &mut case.device),
        1 => damage(rng, &mut case.outcome),
        2 => damage(rng, &mut case.sheet),
        _ => {}
    }
    case.extra = extra::run_files(rng, &world);
    case
}

fn with_text_to_strike(rng: &mut Rng) -> Case {
    let world = world(rng);
    let text = text_to_strike(rng, &world);
    let mut case = case_of("text to strike", text, &world, rng);
    case.extra = extra::strike(rng);
    case
}

fn with_damaged_text(rng: &mut Rng) -> Case {
    let mut case = meaningful(rng);
    case.shape = String::from("damaged text");
    damage_text(rng, &mut case.text);
    case
}

fn with_damaged_device(rng: &mut Rng) -> Case {
    let mut case = meaningful(rng);
    case.shape = String::from("damaged device");
    damage(rng, &mut case.device);
    case
}

fn with_damaged_outcome(rng: &mut Rng) -> Case {
    let mut case = meaningful(rng);
    case.shape = String::from("damaged outcome");
    damage(rng, &mut case.outcome);
    case
}

fn with_damaged_sheet(rng: &mut Rng) -> Case {
    let mut case = meaningful(rng);
    case.shape = String::from("damaged sheet");
    damage(rng, &mut case.sheet);
    case
}

fn of_random_bytes(rng: &mut Rng) -> Case {
    let mut case = meaningful(rng);
    case.shape = String::from("random bytes");
    match rng.below(4) {
        0 => case.text = random_bytes(rng, 400),
        1 => case.sheet = random_bytes(rng, 40),
        2 => case.device = random_bytes(rng, 400),
        _ => case.outcome = random_bytes(rng, 400),
    }
    case
}

fn with_small_rooms(rng: &mut Rng) -> Case {
    let mut case = meaningful(rng);
    case.shape = String::from("small room");
    case.rooms = Rooms {
        fresh: rng.pick(&[0, 1, 13, 17_611, 18_124, 18_125]),
        run: rng.pick(&[0, 1, 13, 8_225, 17_611, 18_124, 18_125]),
        close: rng.pick(&[0, 1, 8_224, 8_225]),
    };
    case
}
