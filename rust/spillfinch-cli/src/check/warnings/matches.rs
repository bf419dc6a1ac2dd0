//! Match keys: missing attributes (E2), names that sysfs resolves (E3), patterns (E4), given
//! properties (E5), kernel names (E19), subsystems of one meaning (E22).

use super::Found;
use crate::syntax::pattern::{alternatives, is_plain, sets};
use crate::syntax::{Key, Operator, Pair, Rule, Span};

/// Properties that the daemon always has.
pub const GIVEN: [&[u8]; 6] = [
    b"ACTION",
    b"DEVLINKS",
    b"DEVNAME",
    b"DEVPATH",
    b"SUBSYSTEM",
    b"TAGS",
];

pub fn judge(rule: &Rule, pair: &Pair, found: &mut Found) {
    if !pair.is_match() || pair.key == Key::Program {
        return;
    }
    let value = &pair.value.bytes;
    match pair.key {
        Key::Attr | Key::Attrs => {
            judge_missing(rule, pair, found);
            judge_name(rule, &pair.argument, &pair.span, found);
        }
        Key::Env if GIVEN.contains(&pair.argument.as_slice()) => {
            found.add(5, rule, &pair.span, given(&pair.argument));
        }
        Key::Kernel | Key::Kernels => judge_kernel(rule, pair, found),
        Key::Subsystem if matches!(value.as_slice(), b"subsystem" | b"bus" | b"class") => {
            let text = "here this names one subsystem; \
                        udev takes subsystem, bus and class as the same";
            found.add(22, rule, &pair.value.span, text);
        }
        _ => {}
    }
    judge_pattern(rule, pair, found);
}

pub fn given(name: &[u8]) -> String {
    let name = String::from_utf8_lossy(name);
    format!("here {name} is only what the record holds; udev always has it")
}

fn judge_missing(rule: &Rule, pair: &Pair, found: &mut Found) {
    if pair.operator == Operator::Unequal {
        let text = "here this holds without the attribute; \
                    in udev neither == nor != holds then";
        found.add(2, rule, &pair.span, text);
    }
}

/// The name of an attribute, in a key or in a template.
pub fn judge_name(rule: &Rule, name: &[u8], span: &Span, found: &mut Found) {
    let mut components = name.split(|&byte| byte == b'/');
    let is_resolved = name.starts_with(b"[")
        || name.iter().any(|byte| matches!(byte, b'$' | b'%'))
        || components.any(|component| matches!(component, b".." | b"*"));
    if is_resolved {
        let text = "here the attribute has this very name; udev resolves it through sysfs";
        found.add(3, rule, span, text);
    }
}

fn judge_kernel(rule: &Rule, pair: &Pair, found: &mut Found) {
    let pattern = &pair.value.bytes;
    for (place, byte) in pattern.iter().enumerate() {
        let is_opposite = place > 0 && pattern[place - 1] == b'[';
        let text = match byte {
            b'!' if !is_opposite => "here a kernel name may hold `!`; udev has `/` in its place",
            b'/' => "here no kernel name holds `/`; udev has it where the kernel has `!`",
            _ => continue,
        };
        found.add_in(19, rule, pair, &(place..place + 1), text);
        return;
    }
}

fn judge_pattern(rule: &Rule, pair: &Pair, found: &mut Found) {
    let pattern = &pair.value.bytes;
    if is_plain(pattern) {
        return;
    }
    if let Some(place) = pattern.iter().position(|&byte| byte == b'\\') {
        let text = "here a backslash stands for itself; \
                    udev escapes the next byte with it in a pattern with `*`, `?` or `[`";
        found.add_in(4, rule, pair, &(place..place + 1), text);
    }
    for (start, alternative) in alternatives(pattern) {
        for set in sets(alternative).0 {
            let members = &alternative[set.members.clone()];
            let text = if members.starts_with(b"^") && !set.is_opposite {
                "here `^` is a member of the set; udev takes the set as its opposite"
            } else if has_class(members) {
                "here the set has these very bytes; udev takes `[:` as the start of a class"
            } else {
                continue;
            };
            let place = start + set.span.start..start + set.span.end;
            found.add_in(4, rule, pair, &place, text);
        }
    }
}

/// Whether the members of a set begin as a class does, of which the set has only the start.
fn has_class(members: &[u8]) -> bool {
    members
        .windows(2)
        .any(|pair| matches!(pair, b"[:" | b"[=" | b"[."))
}
