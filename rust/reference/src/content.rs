//! What a pair means: the reading of its value.

use crate::key::{Key, Operator};
use crate::outcome::{RunType, Watch};
use crate::pattern::Pattern;
use crate::sizes;
use crate::template::Template;

#[derive(Clone, Debug, PartialEq, Eq)]
pub enum Content {
    Match(Match),
    /// A match key with each of its operators; the value is the command.
    Program(Template),
    Result(Pattern),
    Assignment(Assignment),
    Label(Vec<u8>),
    Goto(Vec<u8>),
}

#[derive(Clone, Debug, PartialEq, Eq)]
pub struct Match {
    pub subject: Subject,
    pub pattern: Pattern,
}

/// What a match key is judged on.
#[derive(Clone, Debug, PartialEq, Eq)]
pub enum Subject {
    Action,
    Devpath,
    OfEventDevice(Feature),
    /// A parent key, judged along the chain.
    OfChain(Feature),
    Property(Vec<u8>),
    Links,
    Tags,
}

/// What one device of the chain is judged by.
#[derive(Clone, Debug, PartialEq, Eq)]
pub enum Feature {
    Name,
    Subsystem,
    Driver,
    Attribute(Vec<u8>),
}

#[derive(Clone, Debug, PartialEq, Eq)]
pub enum Assignment {
    Property { key: Vec<u8>, value: Vec<u8> },
    Links(Template),
    Tag(Vec<u8>),
    Owner(Template),
    Group(Template),
    Mode(Template),
    Run(RunType, Template),
    StringEscape(StringEscape),
    LinkPriority(i32),
    Watch(Watch),
}

#[derive(Clone, Copy, Debug, PartialEq, Eq)]
pub enum StringEscape {
    Unset,
    None,
    Replace,
}

/// The content of a pair that the key table allows, or `None` if the value is at fault.
pub fn read_content(
    key: Key,
    argument: &[u8],
    operator: Operator,
    value: &[u8],
) -> Option<Content> {
    match key {
        Key::Program => return Template::read(value).map(Content::Program),
        Key::Result => return Pattern::read(value).map(Content::Result),
        _ => {}
    }
    if operator.is_match() {
        let subject = subject(key, argument);
        let pattern = Pattern::read(value)?;
        return Some(Content::Match(Match { subject, pattern }));
    }
    match key {
        Key::Label => read_label(value).map(Content::Label),
        Key::Goto => read_label(value).map(Content::Goto),
        _ => read_assignment(key, argument, value).map(Content::Assignment),
    }
}

fn subject(key: Key, argument: &[u8]) -> Subject {
    let attribute = || Feature::Attribute(argument.to_vec());
    match key {
        Key::Action => Subject::Action,
        Key::Devpath => Subject::Devpath,
        Key::Kernel => Subject::OfEventDevice(Feature::Name),
        Key::Subsystem => Subject::OfEventDevice(Feature::Subsystem),
        Key::Driver => Subject::OfEventDevice(Feature::Driver),
        Key::Attr => Subject::OfEventDevice(attribute()),
        Key::Kernels => Subject::OfChain(Feature::Name),
        Key::Subsystems => Subject::OfChain(Feature::Subsystem),
        Key::Drivers => Subject::OfChain(Feature::Driver),
        Key::Attrs => Subject::OfChain(attribute()),
        Key::Env => Subject::Property(argument.to_vec()),
        Key::Symlink => Subject::Links,
        Key::Tag => Subject::Tags,
        Key::Program | Key::Result => unreachable!("{key:?} is judged on the answer sheet"),
        Key::Owner | Key::Group | Key::Mode | Key::Run | Key::Label | Key::Goto | Key::Options => {
            unreachable!("the key table gives {key:?} no match operator")
        }
    }
}

fn read_label(value: &[u8]) -> Option<Vec<u8>> {
    (!value.is_empty()).then(|| value.to_vec())
}

fn read_assignment(key: Key, argument: &[u8], value: &[u8]) -> Option<Assignment> {
    Some(match key {
        Key::Env => Assignment::Property {
            key: argument.to_vec(),
            value: value.to_vec(),
        },
        Key::Symlink => Assignment::Links(Template::read(value)?),
        Key::Tag if value.len() > sizes::TAG => return None,
        Key::Tag => Assignment::Tag(value.to_vec()),
        Key::Owner => Assignment::Owner(Template::read(value)?),
        Key::Group => Assignment::Group(Template::read(value)?),
        Key::Mode => Assignment::Mode(Template::read(value)?),
        Key::Run => Assignment::Run(run_type(argument), Template::read(value)?),
        Key::Options => read_option(value)?,
        Key::Action
        | Key::Devpath
        | Key::Kernel
        | Key::Kernels
        | Key::Subsystem
        | Key::Subsystems
        | Key::Driver
        | Key::Drivers
        | Key::Attr
        | Key::Attrs => unreachable!("the key table gives {key:?} no assignment"),
        Key::Program | Key::Result | Key::Label | Key::Goto => {
            unreachable!("{key:?} is no assignment")
        }
    })
}

fn run_type(argument: &[u8]) -> RunType {
    match argument {
        b"builtin" => RunType::Builtin,
        _ => RunType::Program,
    }
}

fn read_option(value: &[u8]) -> Option<Assignment> {
    match value {
        b"string_escape=none" => Some(Assignment::StringEscape(StringEscape::None)),
        b"string_escape=replace" => Some(Assignment::StringEscape(StringEscape::Replace)),
        b"watch" => Some(Assignment::Watch(Watch::Watch)),
        b"nowatch" => Some(Assignment::Watch(Watch::Nowatch)),
        _ => {
            let number = value.strip_prefix(b"link_priority=")?;
            Some(Assignment::LinkPriority(read_priority(number)?))
        }
    }
}

fn read_priority(number: &[u8]) -> Option<i32> {
    let (sign, digits) = match number.strip_prefix(b"-") {
        Some(digits) => (-1, digits),
        None => (1, number),
    };
    if !(1..=10).contains(&digits.len()) || !digits.iter().all(u8::is_ascii_digit) {
        return None;
    }
    let amount = digits
        .iter()
        .fold(0, |amount, digit| 10 * amount + i64::from(digit - b'0'));
    i32::try_from(sign * amount).ok()
}
