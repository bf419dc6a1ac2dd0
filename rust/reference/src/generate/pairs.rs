//! Generated pairs that have to do with a device and an outcome.

use super::patterns;
use super::rng::Rng;
use super::vocabulary::{
    ATTRIBUTE_NAMES, LINKS, LINK_PARTS, MODES, OWNERS, PROPERTY_KEYS, TAGS, VALUES,
    WORLD_WRITABLE_MODES,
};
use super::world::World;
use crate::bytes::without_trailing_whitespace;
use crate::content::Feature;
use crate::device::{ChainDevice, Device};
use crate::engine::feature_of;
use crate::key::Operator;
use crate::outcome::Outcome;
use crate::property::{value_of, Property};
use crate::sizes;

use Operator::{Add, Assign, AssignFinally, Equal, Remove, Unequal};

/// A pair as it stands in a line; the key is given with its argument.
pub fn pair(rng: &mut Rng, key: &[u8], operator: Operator, value: &[u8]) -> Vec<u8> {
    let blanks: &[&[u8]] = &[b"", b"", b"", b"", b"", b"", b"", b" ", b"\t", b"  "];
    [
        key,
        rng.pick(blanks),
        operator.symbol().as_bytes(),
        rng.pick(blanks),
        &written_value(rng, value),
    ]
    .concat()
}

pub fn with_argument(key: &[u8], argument: &[u8]) -> Vec<u8> {
    [key, b"{", argument, b"}"].concat()
}

/// The value with its quotation marks, and escapes where it needs them or now and then.
fn written_value(rng: &mut Rng, value: &[u8]) -> Vec<u8> {
    let needs_escapes = value.contains(&b'\n') || value.ends_with(b"\\");
    if needs_escapes || rng.percent(10) {
        escaped(rng, value)
    } else {
        quoted(value)
    }
}

fn quoted(value: &[u8]) -> Vec<u8> {
    let mut quoted = vec![b'"'];
    for &byte in value {
        if byte == b'"' {
            quoted.push(b'\\');
        }
        quoted.push(byte);
    }
    quoted.push(b'"');
    quoted
}

fn escaped(rng: &mut Rng, value: &[u8]) -> Vec<u8> {
    let most = if value.len() > 60 { 10 } else { 100 };
    let escapes_in_100 = rng.pick(&[0, 10, most]);
    let mut escaped = b"e\"".to_vec();
    for &byte in value {
        if matches!(byte, b'\n' | b'"' | b'\\') || rng.percent(escapes_in_100) {
            escaped.extend(escape(rng, byte));
        } else {
            escaped.push(byte);
        }
    }
    escaped.push(b'"');
    escaped
}

/// An escape for the byte, by its letter where it has one, or by its number.
fn escape(rng: &mut Rng, byte: u8) -> Vec<u8> {
    let letter = match byte {
        7 => b'a',
        8 => b'b',
        9 => b't',
        10 => b'n',
        11 => b'v',
        12 => b'f',
        13 => b'r',
        b'"' | b'\'' | b'\\' => byte,
        _ => b'x',
    };
    if letter != b'x' && rng.percent(80) {
        vec![b'\\', letter]
    } else if rng.percent(50) {
        format!("\\x{byte:02x}").into_bytes()
    } else {
        format!("\\x{byte:02X}").into_bytes()
    }
}

/// A match key that is no parent key, and that mostly holds.
pub fn match_pair(rng: &mut Rng, world: &World) -> Vec<u8> {
    let (key, actual) = matched_key(rng, world);
    let holds = rng.percent(85);
    judged_pair(rng, &key, actual.as_deref(), holds)
}

/// One to three parent keys that mostly hold at one device.
pub fn parent_pairs(rng: &mut Rng, world: &World) -> Vec<Vec<u8>> {
    let mut device = rng.pick_ref(&world.device.chain);
    let mut pairs = Vec::new();
    for _ in 0..rng.between(1, 3) {
        if rng.percent(12) {
            device = rng.pick_ref(&world.device.chain);
        }
        let (key, actual) = parent_key(rng, device);
        let holds = rng.percent(95);
        pairs.push(judged_pair(rng, &key, actual.as_deref(), holds));
    }
    pairs
}

/// A match of the key, so that it holds for the actual text or does not.
pub fn judged_pair(rng: &mut Rng, key: &[u8], actual: Option<&[u8]>, holds: bool) -> Vec<u8> {
    let Some(actual) = actual else {
        return pair_of_absent(rng, key, holds);
    };
    let operator = rng.pick(&[Equal, Equal, Unequal]);
    let pattern = if rng.percent(8) {
        patterns::odd(rng)
    } else if holds == (operator == Equal) {
        patterns::matching(rng, actual)
    } else {
        patterns::failing(rng, actual)
    };
    pair(rng, key, operator, &pattern)
}

/// A match of a key that is absent, mostly with a pattern that the empty text matches.
fn pair_of_absent(rng: &mut Rng, key: &[u8], holds: bool) -> Vec<u8> {
    let operator = if holds { Unequal } else { Equal };
    let pattern = if rng.percent(80) {
        patterns::matching(rng, b"")
    } else {
        patterns::odd(rng)
    };
    pair(rng, key, operator, &pattern)
}

/// A match key, and the text that it is judged on, unless that is absent.
type JudgedKey = (Vec<u8>, Option<Vec<u8>>);

fn matched_key(rng: &mut Rng, world: &World) -> JudgedKey {
    let device = world.device.event_device();
    let outcome = &world.outcome;
    match rng.below(12) {
        0 => (
            b"ACTION".to_vec(),
            Some(world.device.action.name().as_bytes().to_vec()),
        ),
        1 => (b"DEVPATH".to_vec(), Some(device.path.clone())),
        2 | 3 => (b"KERNEL".to_vec(), Some(device.name().to_vec())),
        4 => (b"SUBSYSTEM".to_vec(), Some(device.subsystem.clone())),
        5 => driver_key(b"DRIVER", device),
        6 | 7 => attribute_key(rng, b"ATTR", device),
        8 | 9 => {
            let key = property_key(rng, outcome);
            let actual = value_of(&outcome.properties, &key).unwrap_or_default();
            (with_argument(b"ENV", &key), Some(actual.to_vec()))
        }
        10 => (b"SYMLINK".to_vec(), Some(entry(rng, &outcome.links, LINKS))),
        _ => (b"TAG".to_vec(), Some(entry(rng, &outcome.tags, TAGS))),
    }
}

/// A parent key, and what the device has for it.
fn parent_key(rng: &mut Rng, device: &ChainDevice) -> JudgedKey {
    match rng.below(5) {
        0 => (b"KERNELS".to_vec(), Some(device.name().to_vec())),
        1 => (b"SUBSYSTEMS".to_vec(), Some(device.subsystem.clone())),
        2 => driver_key(b"DRIVERS", device),
        _ => attribute_key(rng, b"ATTRS", device),
    }
}

fn driver_key(key: &[u8], device: &ChainDevice) -> JudgedKey {
    let actual = feature_of(device, &Feature::Driver);
    (key.to_vec(), actual.map(<[u8]>::to_vec))
}

fn attribute_key(rng: &mut Rng, key: &[u8], device: &ChainDevice) -> JudgedKey {
    let name = entry_key(rng, &device.attributes, ATTRIBUTE_NAMES);
    let mut actual = value_of(&device.attributes, &name);
    if rng.percent(60) {
        actual = actual.map(without_trailing_whitespace);
    }
    (with_argument(key, &name), actual.map(<[u8]>::to_vec))
}

/// The key of one of the entries, or another.
fn entry_key(rng: &mut Rng, entries: &[Property], others: &[&[u8]]) -> Vec<u8> {
    if entries.is_empty() || rng.percent(15) {
        rng.pick(others).to_vec()
    } else {
        rng.pick_ref(entries).key.clone()
    }
}

fn property_key(rng: &mut Rng, outcome: &Outcome) -> Vec<u8> {
    entry_key(rng, &outcome.properties, PROPERTY_KEYS)
}

/// One of the list's entries, or another.
fn entry(rng: &mut Rng, list: &[Vec<u8>], others: &[&[u8]]) -> Vec<u8> {
    if list.is_empty() || rng.percent(20) {
        rng.pick(others).to_vec()
    } else {
        rng.pick_ref(list).clone()
    }
}

pub fn assignment_pair(rng: &mut Rng, world: &World) -> Vec<u8> {
    match rng.below(100) {
        0..=29 => symlink_pair(rng, world),
        30..=47 => env_pair(rng, world),
        48..=60 => tag_pair(rng, world),
        61..=73 => run_pair(rng, world),
        74..=78 => owner_pair(rng, b"OWNER", world),
        79..=83 => owner_pair(rng, b"GROUP", world),
        84..=89 => mode_pair(rng, world),
        _ => options_pair(rng),
    }
}

fn list_operator(rng: &mut Rng) -> Operator {
    rng.pick(&[
        Add,
        Add,
        Add,
        Add,
        Add,
        Assign,
        Assign,
        Remove,
        Remove,
        AssignFinally,
    ])
}

fn symlink_pair(rng: &mut Rng, world: &World) -> Vec<u8> {
    let operator = list_operator(rng);
    let value = match rng.below(100) {
        0..=59 => template(rng, &world.device, &world.outcome, LINK_PARTS),
        60..=94 => {
            let names: Vec<Vec<u8>> = (0..rng.between(1, 3))
                .map(|_| entry(rng, &world.outcome.links, LINKS))
                .collect();
            names.join(&b' ')
        }
        95..=96 => Vec::new(),
        _ => rng
            .pick(&[&b"../x"[..], b"/a", b"a//b", b"a/./b", b"a/", b"a ..", b"."])
            .to_vec(),
    };
    pair(rng, b"SYMLINK", operator, &value)
}

fn env_pair(rng: &mut Rng, world: &World) -> Vec<u8> {
    let key = with_argument(b"ENV", &property_key(rng, &world.outcome));
    let value = match rng.below(100) {
        0..=84 => rng.pick(VALUES).to_vec(),
        85..=96 => Vec::new(),
        _ => vec![b'w'; rng.pick(&[128, 255, 256])],
    };
    pair(rng, &key, Assign, &value)
}

fn tag_pair(rng: &mut Rng, world: &World) -> Vec<u8> {
    let operator = list_operator(rng);
    let value = match rng.below(100) {
        0..=92 => entry(rng, &world.outcome.tags, TAGS),
        93..=97 => Vec::new(),
        _ => vec![b't'; sizes::TAG],
    };
    pair(rng, b"TAG", operator, &value)
}

fn run_pair(rng: &mut Rng, world: &World) -> Vec<u8> {
    let key = rng.pick(&[&b"RUN"[..], b"RUN{program}", b"RUN{builtin}"]);
    let operator = rng.pick(&[Add, Add, Add, Add, Add, Add, Assign, AssignFinally]);
    let value = if rng.percent(5) {
        Vec::new()
    } else {
        template(
            rng,
            &world.device,
            &world.outcome,
            &[b"/bin/x ", b"path_id", b" -v "],
        )
    };
    pair(rng, key, operator, &value)
}

fn final_or_not(rng: &mut Rng) -> Operator {
    rng.pick(&[Assign, Assign, AssignFinally])
}

fn owner_pair(rng: &mut Rng, key: &[u8], world: &World) -> Vec<u8> {
    let operator = final_or_not(rng);
    let value = match rng.below(100) {
        0..=87 => rng.pick(OWNERS).to_vec(),
        88..=93 => b"u%n".to_vec(),
        94..=96 => template(rng, &world.device, &world.outcome, &[b"u", b"g-"]),
        _ => rng.pick(&[&b""[..], b"a b", b"a/b", b"\xe4"]).to_vec(),
    };
    pair(rng, key, operator, &value)
}

fn mode_pair(rng: &mut Rng, world: &World) -> Vec<u8> {
    let operator = final_or_not(rng);
    let value = match rng.below(100) {
        0..=77 => rng.pick(MODES).to_vec(),
        78..=87 => rng.pick(WORLD_WRITABLE_MODES).to_vec(),
        88..=93 => b"0%n".to_vec(),
        94..=96 => template(rng, &world.device, &world.outcome, &[b"0", b"6"]),
        _ => rng
            .pick(&[&b""[..], b"888", b"00660", b"0x1", b"-1"])
            .to_vec(),
    };
    pair(rng, b"MODE", operator, &value)
}

pub fn options_pair(rng: &mut Rng) -> Vec<u8> {
    let options: &[&[u8]] = &[
        b"string_escape=none",
        b"string_escape=none",
        b"string_escape=replace",
        b"string_escape=replace",
        b"link_priority=100",
        b"link_priority=-7",
        b"link_priority=0000000012",
        b"link_priority=-0",
        b"watch",
        b"nowatch",
    ];
    let operator = rng.pick(&[Assign, Add]);
    let value = rng.pick(options);
    pair(rng, b"OPTIONS", operator, value)
}

/// A well formed template of 1 to 256 bytes.
pub fn template(
    rng: &mut Rng,
    device: &Device,
    outcome: &Outcome,
    written_parts: &[&[u8]],
) -> Vec<u8> {
    let mut template = rng.pick(written_parts).to_vec();
    for _ in 0..rng.below(5) {
        if rng.percent(60) {
            template.extend(piece(rng, device, outcome));
        } else {
            template.extend_from_slice(rng.pick(written_parts));
        }
    }
    if template.len() > sizes::VALUE {
        template = b"%k".to_vec();
    }
    template
}

fn piece(rng: &mut Rng, device: &Device, outcome: &Outcome) -> Vec<u8> {
    let plain: &[&[u8]] = &[
        b"$kernel",
        b"%k",
        b"$number",
        b"%n",
        b"$id",
        b"%b",
        b"$driver",
        b"$major",
        b"%M",
        b"$minor",
        b"%m",
        b"$$",
        b"%%",
        b"$idx",
        b"%kx",
        b"$devpath",
        b"%p",
        b"$result",
        b"%c",
    ];
    match rng.below(10) {
        0..=3 => rng.pick(plain).to_vec(),
        4..=6 => {
            let attributes = &rng.pick_ref(&device.chain).attributes;
            let name = entry_key(rng, attributes, ATTRIBUTE_NAMES);
            with_argument(rng.pick(&[b"$attr", &b"%s"[..]]), &name)
        }
        _ => {
            let key = property_key(rng, outcome);
            with_argument(rng.pick(&[b"$env", &b"%E"[..]]), &key)
        }
    }
}
