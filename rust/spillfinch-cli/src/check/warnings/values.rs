//! Assigned values: what is substituted (E6), properties that are refused (E7), tags (E9),
//! programs (E13), modes, owners and groups (E15), priorities (E16).

use super::Found;
use crate::syntax::content::priority;
use crate::syntax::template::What;
use crate::syntax::{Key, Operator, Pair, Rule};

/// Properties that no rule of the daemon may set.
const REFUSED: [&[u8]; 12] = [
    b"ACTION",
    b"DEVLINKS",
    b"DEVNAME",
    b"DEVPATH",
    b"DEVTYPE",
    b"DRIVER",
    b"IFINDEX",
    b"MAJOR",
    b"MINOR",
    b"SEQNUM",
    b"SUBSYSTEM",
    b"TAGS",
];

/// The builtins of udev 252.
const BUILTINS: [&[u8]; 11] = [
    b"blkid",
    b"btrfs",
    b"hwdb",
    b"input_id",
    b"keyboard",
    b"kmod",
    b"net_id",
    b"net_setup_link",
    b"path_id",
    b"uaccess",
    b"usb_id",
];

const OWNER_MOST: usize = 32;
const MODE_DIGITS_MOST: usize = 4;

pub fn judge(rule: &Rule, pair: &Pair, found: &mut Found) {
    if pair.is_match() {
        return;
    }
    match pair.key {
        Key::Env => judge_env(rule, pair, found),
        Key::Tag => judge_tag(rule, pair, found),
        Key::Run => judge_run(rule, pair, found),
        Key::Mode => judge_mode(rule, pair, found),
        Key::Owner | Key::Group => judge_owner(rule, pair, found),
        Key::Options => judge_priority(rule, pair, found),
        _ => {}
    }
}

fn judge_sign(rule: &Rule, pair: &Pair, found: &mut Found) {
    let is_sign = |byte: &u8| matches!(byte, b'$' | b'%');
    if let Some(place) = pair.value.bytes.iter().position(is_sign) {
        let text = "here `$` and `%` stand for themselves in ENV and TAG; udev substitutes them";
        found.add_in(6, rule, pair, &(place..place + 1), text);
    }
}

fn judge_env(rule: &Rule, pair: &Pair, found: &mut Found) {
    judge_sign(rule, pair, found);
    if REFUSED.contains(&pair.argument.as_slice()) {
        let name = String::from_utf8_lossy(&pair.argument);
        let text = format!("here ENV{{{name}}} is set; udev refuses the line");
        found.add(7, rule, &pair.span, text);
    }
}

fn judge_tag(rule: &Rule, pair: &Pair, found: &mut Found) {
    judge_sign(rule, pair, found);
    let is_plain = |byte: &u8| byte.is_ascii_alphanumeric() || b"-_$%".contains(byte);
    let value = &pair.value.bytes;
    if let Some(place) = value.iter().position(|byte| !is_plain(byte)) {
        let text = "here a tag has any bytes; udev takes letters, digits, `-` and `_` only";
        found.add_in(9, rule, pair, &(place..place + 1), text);
    }
    if pair.operator == Operator::AssignFinally {
        let text = "here := closes TAG for later rules; udev takes it as =";
        found.add(9, rule, &pair.span, text);
    }
    if pair.operator == Operator::Assign && value.is_empty() {
        let text = "here all tags are removed; udevadm 252 crashes if one was added before";
        found.add(9, rule, &pair.span, text);
    }
}

fn judge_run(rule: &Rule, pair: &Pair, found: &mut Found) {
    let value = &pair.value.bytes;
    if value.is_empty() {
        let text = "here an empty value adds nothing; udev adds an empty command";
        found.add(13, rule, &pair.span, text);
        return;
    }
    let mut words = value.split(|byte| byte.is_ascii_whitespace());
    let name = words.find(|word| !word.is_empty()).unwrap_or_default();
    if pair.argument == b"builtin" && !BUILTINS.contains(&name) {
        let text = "here any builtin is added; udev 252 has none of this name and refuses the line";
        found.add(13, rule, &pair.value.span, text);
    }
}

/// Whether a value is assigned as it is written.
fn is_written(pair: &Pair) -> bool {
    let pieces = pair.pieces();
    pieces.iter().all(|piece| piece.what == What::Text)
}

fn judge_mode(rule: &Rule, pair: &Pair, found: &mut Found) {
    let value = &pair.value.bytes;
    let is_octal = !value.is_empty() && value.iter().all(|byte| matches!(byte, b'0'..=b'7'));
    if !is_written(pair) || is_octal && value.len() <= MODE_DIGITS_MOST {
        return;
    }
    let digits = String::from_utf8_lossy(value);
    let mode = u32::from_str_radix(&digits, 8).ok().filter(|_| is_octal);
    let text = match mode {
        Some(0..=0o7777) => "here a mode of more than 4 digits is refused (34); udev takes it",
        _ => "here this is refused as a mode (34) when its rule runs; udev ignores it",
    };
    found.add(15, rule, &pair.value.span, text);
}

fn judge_owner(rule: &Rule, pair: &Pair, found: &mut Found) {
    let value = &pair.value.bytes;
    let is_plain = |byte: &u8| byte.is_ascii_alphanumeric() || b"_-.".contains(byte);
    let is_name = (1..=OWNER_MOST).contains(&value.len()) && value.iter().all(is_plain);
    if is_written(pair) && !is_name {
        let text = "here this is refused as a name (33) when its rule runs; udev ignores it";
        found.add(15, rule, &pair.value.span, text);
    }
}

/// A group without a mode, in a text that sets none.
pub fn judge_group(rules: &[Rule], found: &mut Found) {
    let mut pairs = rules.iter().flat_map(|rule| &rule.pairs);
    if pairs.any(|pair| pair.key == Key::Mode) {
        return;
    }
    for rule in rules {
        if let Some(group) = rule.pairs.iter().find(|pair| pair.key == Key::Group) {
            let text = "here the mode stays unset; udev makes it 0660 where only a group is set";
            found.add(15, rule, &group.span, text);
            return;
        }
    }
}

fn judge_priority(rule: &Rule, pair: &Pair, found: &mut Found) {
    let value = &pair.value.bytes;
    let Some(number) = priority(value) else {
        return;
    };
    let digits = value.iter().skip_while(|byte| !byte.is_ascii_digit());
    let digits: Vec<u8> = digits.copied().collect();
    if digits.starts_with(b"0") && number != 0 {
        let text =
            format!("here the priority is {number}; udev reads the digits behind 0 as octal");
        found.add(16, rule, &pair.value.span, text);
    }
}
