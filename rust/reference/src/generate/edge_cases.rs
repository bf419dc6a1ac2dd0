//! The building of the cases in the tables of edges.

use super::rng::Rng;
use super::world;
use super::{Case, Extra, Rooms};
use crate::device::{Action, ChainDevice, Device};
use crate::outcome::{Closed, Edition, Outcome, Run, RunType, Watch};
use crate::property::Property;
use crate::sheet;
use crate::sizes;
use crate::template::Template;

fn full_rooms() -> Rooms {
    Rooms {
        fresh: sizes::OUTCOME_TARGET,
        run: sizes::OUTCOME_TARGET,
        close: sizes::RUN_LIST_TARGET,
    }
}

fn case(text: Vec<u8>, device: Vec<u8>, outcome: Vec<u8>) -> Case {
    Case {
        shape: String::new(),
        text,
        device,
        outcome,
        sheet: sheet::EMPTY.to_vec(),
        rooms: full_rooms(),
        extra: Extra::Nothing,
    }
}

/// A device with a parent and a few properties and attributes.
pub fn some_device(rng: &mut Rng) -> Device {
    loop {
        let mut device = world::device(rng);
        device.properties.truncate(4);
        if (2..6).contains(&device.chain.len()) {
            return device;
        }
    }
}

fn of_world(text: Vec<u8>, device: &Device, outcome: &Outcome) -> Case {
    case(text, device.encode(), outcome.encode())
}

/// The text with a device for which none of its rules should be refused.
pub fn of_text(text: Vec<u8>, rng: &mut Rng) -> Case {
    let device = some_device(rng);
    of_world(text, &device, &Outcome::fresh(&device))
}

pub fn of_line(line: impl AsRef<[u8]>, rng: &mut Rng) -> Case {
    let text = with_lines_around(line.as_ref(), rng);
    of_text(text, rng)
}

/// As `of_line`, with no lines after it.
pub fn of_last_line(line: impl AsRef<[u8]>, rng: &mut Rng) -> Case {
    let text = [rng.pick(LINES_BEFORE), line.as_ref()].concat();
    of_text(text, rng)
}

/// As `of_line`, with a device that has no properties.
pub fn of_bare_line(line: Vec<u8>, rng: &mut Rng) -> Case {
    let text = with_lines_around(&line, rng);
    let mut device = some_device(rng);
    device.properties.clear();
    of_world(text, &device, &Outcome::fresh(&device))
}

const LINES_BEFORE: &[&[u8]] = &[b"", b"\n", b"# first\n \n", b"KERNEL==\"nothing\"\n"];

fn with_lines_around(line: &[u8], rng: &mut Rng) -> Vec<u8> {
    let after: &[&[u8]] = &[b"", b"\n", b"\n# last"];
    [rng.pick(LINES_BEFORE), line, rng.pick(after)].concat()
}

pub fn long_line(length: usize) -> Vec<u8> {
    let mut line = b"KERNEL==\"*\"".to_vec();
    line.resize(length, b' ');
    line
}

pub fn comment(length: usize) -> Vec<u8> {
    let mut line = b"#".to_vec();
    line.resize(length, b'c');
    line
}

/// The quoted form of a value of that length, some of whose bytes are quotation marks.
pub fn marks(rng: &mut Rng, length: usize) -> Vec<u8> {
    let count = rng.pick(&[0, 1, length / 2, length]);
    [b"\\\"".repeat(count), vec![b'v'; length - count]].concat()
}

pub fn env_line(quoted: Vec<u8>) -> Vec<u8> {
    [&b"ENV{A}=\""[..], &quoted, b"\""].concat()
}

/// The escape so many times.
pub fn escaped_env_line(escape: &str, count: usize) -> String {
    format!("ENV{{A}}=e\"{}\"", escape.repeat(count))
}

pub fn env_argument(length: usize) -> Vec<u8> {
    [&b"ENV{"[..], &vec![b'k'; length], b"}=\"v\""].concat()
}

pub fn template_argument(length: usize) -> Vec<u8> {
    [&b"RUN=\"$attr{"[..], &vec![b'k'; length], b"}\""].concat()
}

pub fn pairs(count: usize) -> Vec<u8> {
    vec!["TAG+=\"a\""; count].join(",").into_bytes()
}

pub fn many_rules(count: usize) -> Vec<u8> {
    vec!["TAG+=\"a\""; count].join("\n").into_bytes()
}

pub fn long_text(length: usize) -> Vec<u8> {
    let mut text = b"TAG+=\"a\"".to_vec();
    while text.len() < length {
        text.push(b'\n');
        let line = (length - text.len()).min(1_000);
        text.extend(vec![b'#'; line]);
    }
    text
}

pub fn assignment(rng: &mut Rng) -> &'static str {
    rng.pick(&["=", "+=", "-=", ":="])
}

pub fn tag_line(operator: &str, length: usize) -> Vec<u8> {
    format!("TAG{operator}\"{}\"", "t".repeat(length)).into_bytes()
}

pub fn of_priority(digits: &str, rng: &mut Rng) -> Case {
    of_line(format!("OPTIONS+=\"link_priority={digits}\""), rng)
}

pub fn link_line(length: usize) -> String {
    format!("SYMLINK+=\"{}\"", "l".repeat(length))
}

pub fn list_lines(key: &str, count: usize) -> String {
    let line = |index| format!("{key}+=\"n{index}\"");
    (1..=count).map(line).collect::<Vec<_>>().join("\n")
}

pub fn env_lines(count: usize) -> Vec<u8> {
    let line = |index| format!("ENV{{n{index}}}=\"v\"");
    let lines: Vec<String> = (1..=count).map(line).collect();
    lines.join("\n").into_bytes()
}

pub fn owner_line(key: &str, length: usize) -> String {
    format!("{key}=\"{}\"", "o".repeat(length))
}

pub fn names(count: usize) -> Vec<Vec<u8>> {
    (1..=count)
        .map(|index| format!("n{index}").into_bytes())
        .collect()
}

pub fn numbered(count: usize) -> Vec<Property> {
    names(count)
        .iter()
        .map(|name| Property::new(name, b"v"))
        .collect()
}

pub fn run(template: &[u8], matched: usize) -> Run {
    Run {
        run_type: RunType::Builtin,
        matched,
        template: Template::read(template).expect("a well formed template"),
    }
}

/// An outcome whose lists are full, of short entries.
fn full_outcome() -> Outcome {
    Outcome {
        links: names(sizes::LINKS),
        tags: names(sizes::TAGS),
        runs: names(sizes::RUNS).iter().map(|name| run(name, 0)).collect(),
        properties: numbered(sizes::PROPERTIES),
        ..Outcome::default()
    }
}

pub fn all_closed() -> Closed {
    Closed {
        links: true,
        tags: true,
        runs: true,
        owner: true,
        group: true,
        mode: true,
    }
}

pub fn of_full(line: &str, rng: &mut Rng) -> Case {
    let text = with_lines_around(line.as_bytes(), rng);
    of_world(text, &some_device(rng), &full_outcome())
}

pub fn of_full_and_closed(line: &str, rng: &mut Rng) -> Case {
    let text = with_lines_around(line.as_bytes(), rng);
    let mut outcome = full_outcome();
    outcome.closed = all_closed();
    outcome.properties[0].value = vec![b'v'; 256];
    outcome.properties[1].value = vec![b'v'; 256];
    of_world(text, &some_device(rng), &outcome)
}

fn of_line_with_properties(line: &str, properties: Vec<Property>, rng: &mut Rng) -> Case {
    let text = with_lines_around(line.as_bytes(), rng);
    let mut device = some_device(rng);
    device.properties = properties;
    of_world(text, &device, &Outcome::fresh(&device))
}

/// Links of 128, 128, 128 and so many bytes.
pub fn of_links(last: usize, rng: &mut Rng) -> Case {
    let properties = vec![
        Property::new(b"A", &[b'a'; 128]),
        Property::new(b"B", &[b'b'; 128]),
        Property::new(b"C", &[b'c'; 128]),
        Property::new(b"D", &vec![b'd'; last]),
    ];
    let line = "SYMLINK+=\"$env{A} %E{B} $env{C} %E{D}\"";
    of_line_with_properties(line, properties, rng)
}

/// Links of 127, 128, so many and 128 bytes, split inside the properties.
pub fn of_split_links(third: usize, rng: &mut Rng) -> Case {
    let two_names = |first: u8, length: usize, second: u8| {
        [vec![first; length], vec![b' '], vec![second; 128]].concat()
    };
    let properties = vec![
        Property::new(b"A", &two_names(b'a', 127, b'b')),
        Property::new(b"B", &two_names(b'c', third, b'd')),
    ];
    let line = "OPTIONS=\"string_escape=none\", SYMLINK+=\"$env{A} $env{B}\"";
    of_line_with_properties(line, properties, rng)
}

/// The line with a property A that has every kind of whitespace.
pub fn of_whitespace(line: &str, rng: &mut Rng) -> Case {
    let properties = vec![Property::new(b"A", b" a\tb\nc\x0bd\x0ce\rf  g ")];
    of_line_with_properties(line, properties, rng)
}

/// A template of 512 substituted bytes and so many more.
pub fn of_template(key: &str, extra: usize, rng: &mut Rng) -> Case {
    let properties = vec![Property::new(b"A", &[b'0'; 256])];
    let line = format!("{key}=\"$env{{A}}%E{{A}}{}\"", "0".repeat(extra));
    of_line_with_properties(&line, properties, rng)
}

const HARMLESS: &[u8] = b"KERNEL==\"*\", OPTIONS=\"link_priority=3\"";

pub fn of_record(device: Vec<u8>, _rng: &mut Rng) -> Case {
    case(HARMLESS.to_vec(), device, Outcome::default().encode())
}

pub fn of_device(change: fn(&mut Device), rng: &mut Rng) -> Case {
    let mut device = some_device(rng);
    change(&mut device);
    of_record(device.encode(), rng)
}

pub fn of_event_path(path: &[u8], rng: &mut Rng) -> Case {
    let mut device = some_device(rng);
    device.chain.truncate(1);
    device.chain[0].path = path.to_vec();
    of_record(device.encode(), rng)
}

pub fn of_property(key: usize, value: usize, rng: &mut Rng) -> Case {
    let mut device = some_device(rng);
    device.properties = vec![Property::new(&vec![b'k'; key], &vec![b'v'; value])];
    of_record(device.encode(), rng)
}

pub fn of_attribute(name: usize, value: usize, rng: &mut Rng) -> Case {
    let mut device = some_device(rng);
    let place = rng.below(device.chain.len());
    device.chain[place].attributes = vec![Property::new(&vec![b'k'; name], &vec![b'v'; value])];
    of_record(device.encode(), rng)
}

pub fn of_device_bytes(change: fn(&mut Vec<u8>), rng: &mut Rng) -> Case {
    let mut record = some_device(rng).encode();
    change(&mut record);
    of_record(record, rng)
}

fn chain_device(path: Vec<u8>) -> ChainDevice {
    ChainDevice {
        path,
        subsystem: Vec::new(),
        driver: Vec::new(),
        attributes: Vec::new(),
    }
}

/// Gives the device a chain of that length.
pub fn lengthen(device: &mut Device, length: usize) {
    device.chain = (1..=length)
        .rev()
        .map(|depth| chain_device(b"/d".repeat(depth)))
        .collect();
}

/// A sound record, but for its length if that is too large.
pub fn padded_device(length: usize) -> Vec<u8> {
    const WITHOUT_VALUE: usize = 2 + 3;
    let mut device = Device {
        action: Action::Change,
        node: None,
        properties: Vec::new(),
        chain: Vec::new(),
    };
    lengthen(&mut device, 3);
    for index in 0.. {
        let missing = length - device.encode().len();
        let value_length = match missing {
            0 => break,
            _ if missing > WITHOUT_VALUE + sizes::PROPERTY_VALUE => 200,
            _ => missing - WITHOUT_VALUE,
        };
        device.chain[index % 3].attributes.push(Property {
            key: format!("{index:03}").into_bytes(),
            value: vec![b'v'; value_length],
        });
    }
    device.encode()
}

pub fn of_outcome(change: fn(&mut Outcome, usize), rng: &mut Rng) -> Case {
    let device = some_device(rng);
    let mut outcome = Outcome::fresh(&device);
    change(&mut outcome, device.chain.len());
    of_world(HARMLESS.to_vec(), &device, &outcome)
}

pub fn of_outcome_links(links: &[&[u8]], rng: &mut Rng) -> Case {
    let device = some_device(rng);
    let mut outcome = Outcome::fresh(&device);
    outcome.links = links.iter().map(|link| link.to_vec()).collect();
    of_world(HARMLESS.to_vec(), &device, &outcome)
}

pub fn of_outcome_tags(tags: &[&[u8]], rng: &mut Rng) -> Case {
    let device = some_device(rng);
    let mut outcome = Outcome::fresh(&device);
    outcome.tags = tags.iter().map(|tag| tag.to_vec()).collect();
    of_world(HARMLESS.to_vec(), &device, &outcome)
}

pub fn of_outcome_bytes(change: fn(&mut Vec<u8>), rng: &mut Rng) -> Case {
    let mut case = of_outcome(|_, _| {}, rng);
    change(&mut case.outcome);
    case
}

/// An outcome whose last three bytes are the end of a run's lengths and its template `%k`.
pub fn of_last_run(change: fn(&mut Vec<u8>), rng: &mut Rng) -> Case {
    let mut case = of_outcome(|outcome, _| outcome.runs = vec![run(b"%k", 1)], rng);
    change(&mut case.outcome);
    case
}

fn long_names(count: usize, length: usize) -> Vec<Vec<u8>> {
    (0..count)
        .map(|index| format!("{index:0length$}").into_bytes())
        .collect()
}

/// The fullest outcome: every list and every text as long as can be.
pub fn fullest() -> Outcome {
    Outcome {
        closed: Closed::default(),
        owner: Some(vec![b'o'; 32]),
        group: Some(vec![b'g'; 32]),
        mode: Some(0o7775),
        priority: -1,
        links: long_names(16, 128),
        properties: long_names(32, 64)
            .iter()
            .map(|key| Property::new(key, &[b'v'; 256]))
            .collect(),
        tags: long_names(16, 64),
        runs: long_names(16, 256)
            .iter()
            .map(|template| run(template, 1))
            .collect(),
        output: vec![b'p'; 512],
        watch: Watch::Nowatch,
    }
}

/// The writing of a text into so much room.
pub fn of_written(text: impl Into<Vec<u8>>, room: usize, rng: &mut Rng) -> Case {
    let mut case = of_text(text.into(), rng);
    case.extra = Extra::Write { room };
    case
}

/// A text without anything to leave out, of that length.
pub fn tight_text(length: usize) -> Vec<u8> {
    // 99 bytes and a newline.
    let rule = format!("ENV{{A}}=\"{}\"", "v".repeat(90));
    let mut text = format!("{rule}\n").repeat(length / 100 - 1);
    let rest = length - text.len();
    text += &format!("ENV{{A}}=\"{}\"", "v".repeat(rest - 9));
    text.into_bytes()
}

/// Conversions of an outcome, in both directions with the same content as far as can be.
pub fn of_conversion(change: fn(&mut Outcome, usize), rng: &mut Rng) -> Case {
    of_conversion_with_room(
        change,
        sizes::OUTCOME_TARGET,
        sizes::OLD_OUTCOME_TARGET,
        rng,
    )
}

pub fn of_conversion_with_room(
    change: fn(&mut Outcome, usize),
    newer: usize,
    older: usize,
    rng: &mut Rng,
) -> Case {
    let mut case = of_outcome(|_, _| {}, rng);
    let device = Device::decode(&case.device).expect("a sound device");
    let mut outcome = Outcome::fresh(&device);
    change(&mut outcome, device.chain.len());
    case.extra = Extra::Convert {
        old: outcome.encode_edition(Edition::First),
        newer,
        older,
    };
    case.outcome = outcome.encode();
    case
}

pub fn longest_runs() -> Outcome {
    Outcome {
        properties: vec![Property::new(b"A", &[b'v'; 256])],
        runs: vec![run(b"$env{A}%E{A}", 0); 16],
        ..Outcome::default()
    }
}

pub fn of_rooms(fresh: usize, run: usize, close: usize, rng: &mut Rng) -> Case {
    let mut case = of_line(b"TAG+=\"a\", RUN+=\"%k\"", rng);
    case.rooms = Rooms { fresh, run, close };
    case
}
