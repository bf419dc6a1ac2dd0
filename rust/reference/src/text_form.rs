//! The text form of device and outcome records; README.md describes it.

use std::fmt;

use crate::bytes::is_blank;
use crate::device::{is_parent_path, is_sound_path, Action, ChainDevice, Device, Node};
use crate::engine::read_mode;
use crate::link::is_sound_link;
use crate::outcome::{
    is_sound_owner_or_group, is_sound_tag, lets_others_write, Closed, Outcome, Run, RunType, Watch,
};
use crate::property::{value_of, Property};
use crate::run_list::{RunEntry, RunList};
use crate::sizes;
use crate::template::Template;

const MAJOR_LIMIT: u32 = (1 << 12) - 1;
const MINOR_LIMIT: u32 = (1 << 20) - 1;

#[derive(Clone, Debug, PartialEq, Eq)]
pub struct FormError {
    pub line: usize,
    pub message: String,
}

impl fmt::Display for FormError {
    fn fmt(&self, f: &mut fmt::Formatter) -> fmt::Result {
        write!(f, "line {}: {}", self.line, self.message)
    }
}

impl std::error::Error for FormError {}

/// What a single line makes of its part; the line number is put to it later.
pub(crate) type Parsed<T> = Result<T, String>;

/// The device that a text form describes.
pub fn parse_device(form: &[u8]) -> Result<Device, FormError> {
    let mut form_of_device = DeviceForm {
        action: None,
        node: None,
        properties: Vec::new(),
        chain: Vec::new(),
    };
    let last_line = each_line(form, |word, rest| form_of_device.take_line(word, rest))?;
    form_of_device.finish().map_err(|message| FormError {
        line: last_line,
        message,
    })
}

/// The outcome that a text form describes.
pub fn parse_outcome(form: &[u8]) -> Result<Outcome, FormError> {
    let mut outcome = Outcome::default();
    let mut once = Once::default();
    each_line(form, |word, rest| {
        take_outcome_line(&mut outcome, &mut once, word, rest)
    })?;
    Ok(outcome)
}

/// Gives each line's word and rest to `take_line`, and gives back the number of lines.
pub(crate) fn each_line(
    form: &[u8],
    mut take_line: impl FnMut(&str, &[u8]) -> Parsed<()>,
) -> Result<usize, FormError> {
    let mut last = 0;
    for (line, number) in form.split(|&byte| byte == b'\n').zip(1..) {
        last = number;
        let line = without_blanks_around(line);
        if line.is_empty() || line.starts_with(b"#") {
            continue;
        }
        let word_end = line.iter().position(|&byte| is_blank(byte));
        let (word, rest) = line.split_at(word_end.unwrap_or(line.len()));
        take_line(&String::from_utf8_lossy(word), without_blanks_around(rest)).map_err(
            |message| FormError {
                line: number,
                message,
            },
        )?;
    }
    Ok(last)
}

fn without_blanks_around(mut text: &[u8]) -> &[u8] {
    while let [b' ' | b'\t', rest @ ..] | [rest @ .., b' ' | b'\t' | b'\r'] = text {
        text = rest;
    }
    text
}

struct DeviceForm {
    action: Option<Action>,
    node: Option<Node>,
    properties: Vec<Property>,
    chain: Vec<ChainDevice>,
}

impl DeviceForm {
    fn take_line(&mut self, word: &str, rest: &[u8]) -> Parsed<()> {
        match word {
            "action" => {
                self.before_devices(word)?;
                set_once(&mut self.action, word, parse_action(rest)?)
            }
            "node" => {
                self.before_devices(word)?;
                set_once(&mut self.node, word, parse_node(rest)?)
            }
            "property" => {
                self.before_devices(word)?;
                add_property(&mut self.properties, word, rest, sizes::PROPERTIES)
            }
            "device" => self.add_device(rest),
            "subsystem" => {
                let subsystem = text_within(word, rest, 0..=sizes::SUBSYSTEM)?;
                self.last_device(word)?.subsystem = subsystem;
                Ok(())
            }
            "driver" => {
                let driver = text_within(word, rest, 0..=sizes::DRIVER)?;
                self.last_device(word)?.driver = driver;
                Ok(())
            }
            "attribute" => {
                let attributes = &mut self.last_device(word)?.attributes;
                add_property(attributes, word, rest, sizes::ATTRIBUTES)
            }
            _ => Err(format!(
                "unknown word `{word}`; a device record has action, node, property, device, \
                 subsystem, driver and attribute"
            )),
        }
    }

    fn before_devices(&self, word: &str) -> Parsed<()> {
        if self.chain.is_empty() {
            Ok(())
        } else {
            Err(format!("`{word}` comes before the first `device`"))
        }
    }

    fn last_device(&mut self, word: &str) -> Parsed<&mut ChainDevice> {
        self.chain
            .last_mut()
            .ok_or_else(|| format!("`{word}` comes after the `device` that it belongs to"))
    }

    fn add_device(&mut self, rest: &[u8]) -> Parsed<()> {
        let path = text_within("path", rest, 1..=sizes::PATH)?;
        if !is_sound_path(&path) {
            return Err(String::from(
                "a path starts with `/` and has no empty component",
            ));
        }
        if self.chain.len() == sizes::CHAIN {
            return Err(format!("at most {} devices", sizes::CHAIN));
        }
        if let Some(child) = self.chain.last() {
            if !is_parent_path(&path, &child.path) {
                return Err(String::from(
                    "a parent's path is the path before it, cut before one of its later slashes",
                ));
            }
        }
        self.chain.push(ChainDevice {
            path,
            subsystem: Vec::new(),
            driver: Vec::new(),
            attributes: Vec::new(),
        });
        Ok(())
    }

    fn finish(self) -> Parsed<Device> {
        if self.chain.is_empty() {
            return Err(String::from("no `device`"));
        }
        let device = Device {
            action: self.action.unwrap_or(Action::Add),
            node: self.node,
            properties: self.properties,
            chain: self.chain,
        };
        let length = device.encode().len();
        if length > sizes::DEVICE_RECORD {
            return Err(format!(
                "the record has {length} bytes; at most {}",
                sizes::DEVICE_RECORD
            ));
        }
        Ok(device)
    }
}

/// The words of an outcome that stand at most once and show no value when missing.
#[derive(Default)]
struct Once {
    closed: Option<()>,
    priority: Option<()>,
    watch: Option<()>,
    output: Option<()>,
}

fn take_outcome_line(
    outcome: &mut Outcome,
    once: &mut Once,
    word: &str,
    rest: &[u8],
) -> Parsed<()> {
    match word {
        "closed" => {
            outcome.closed = parse_closed(rest)?;
            set_once(&mut once.closed, word, ())
        }
        "owner" => set_once(&mut outcome.owner, word, parse_owner_or_group(word, rest)?),
        "group" => set_once(&mut outcome.group, word, parse_owner_or_group(word, rest)?),
        "mode" => {
            let mode = read_mode(rest).ok_or("a mode has 1 to 4 octal digits")?;
            if lets_others_write(mode) {
                return Err(String::from("a mode gives others no write permission"));
            }
            set_once(&mut outcome.mode, word, mode)
        }
        "priority" => {
            outcome.priority = parse_number(rest, i32::MIN, i32::MAX)?;
            set_once(&mut once.priority, word, ())
        }
        "watch" | "nowatch" => {
            if !rest.is_empty() {
                return Err(format!("`{word}` stands alone"));
            }
            outcome.watch = match word {
                "watch" => Watch::Watch,
                _ => Watch::Nowatch,
            };
            set_once(&mut once.watch, "watch` or `nowatch", ())
        }
        "output" => {
            outcome.output = text_within(word, rest, 0..=sizes::OUTPUT)?;
            set_once(&mut once.output, word, ())
        }
        "link" => {
            let link = text_within(word, rest, 1..=sizes::LINK)?;
            if !is_sound_link(&link) {
                return Err(String::from(
                    "a link starts with no `/` and has no empty, `.` or `..` component",
                ));
            }
            add_entry(&mut outcome.links, word, link, sizes::LINKS)
        }
        "property" => add_property(&mut outcome.properties, word, rest, sizes::PROPERTIES),
        "tag" => {
            let tag = text_within(word, rest, 1..=sizes::TAG)?;
            debug_assert!(is_sound_tag(&tag));
            add_entry(&mut outcome.tags, word, tag, sizes::TAGS)
        }
        "program" => add_run(&mut outcome.runs, RunType::Program, rest),
        "builtin" => add_run(&mut outcome.runs, RunType::Builtin, rest),
        _ => Err(format!(
            "unknown word `{word}`; an outcome record has closed, owner, group, mode, \
             priority, watch, nowatch, output, link, property, tag, program and builtin"
        )),
    }
}

pub(crate) fn set_once<T>(place: &mut Option<T>, word: &str, value: T) -> Parsed<()> {
    if place.is_some() {
        return Err(format!("a second `{word}`"));
    }
    *place = Some(value);
    Ok(())
}

fn parse_action(rest: &[u8]) -> Parsed<Action> {
    Action::ALL
        .into_iter()
        .find(|action| action.name().as_bytes() == rest)
        .ok_or_else(|| {
            let names = Action::ALL.map(Action::name).join(", ");
            format!("no such action; there are {names}")
        })
}

fn parse_node(rest: &[u8]) -> Parsed<Node> {
    let mut numbers = rest
        .split(|&byte| is_blank(byte))
        .filter(|number| !number.is_empty());
    let (Some(major), Some(minor), None) = (numbers.next(), numbers.next(), numbers.next()) else {
        return Err(String::from("`node` takes a major and a minor number"));
    };
    Ok(Node {
        major: parse_number(major, 0, MAJOR_LIMIT)?,
        minor: parse_number(minor, 0, MINOR_LIMIT)?,
    })
}

fn parse_closed(rest: &[u8]) -> Parsed<Closed> {
    let mut closed = Closed::default();
    for word in rest
        .split(|&byte| is_blank(byte))
        .filter(|word| !word.is_empty())
    {
        match word {
            b"links" => closed.links = true,
            b"tags" => closed.tags = true,
            b"runs" => closed.runs = true,
            b"owner" => closed.owner = true,
            b"group" => closed.group = true,
            b"mode" => closed.mode = true,
            _ => {
                return Err(String::from(
                    "`closed` takes links, tags, runs, owner, group and mode",
                ))
            }
        }
    }
    Ok(closed)
}

fn parse_owner_or_group(word: &str, rest: &[u8]) -> Parsed<Vec<u8>> {
    if is_sound_owner_or_group(rest) {
        Ok(rest.to_vec())
    } else {
        Err(format!(
            "`{word}` takes 1 to {} letters, digits, `_`, `-` or `.`",
            sizes::OWNER
        ))
    }
}

fn parse_number<N>(digits: &[u8], least: N, most: N) -> Parsed<N>
where
    N: std::str::FromStr + PartialOrd + fmt::Display,
{
    std::str::from_utf8(digits)
        .ok()
        .and_then(|digits| digits.parse().ok())
        .filter(|number| (&least..=&most).contains(&number))
        .ok_or_else(|| {
            let digits = String::from_utf8_lossy(digits);
            format!("`{digits}` is no number from {least} to {most}")
        })
}

fn add_entry(list: &mut Vec<Vec<u8>>, word: &str, entry: Vec<u8>, limit: usize) -> Parsed<()> {
    if list.contains(&entry) {
        return Err(format!("the same `{word}` a second time"));
    }
    if list.len() == limit {
        return Err(format!("at most {limit} of `{word}`"));
    }
    list.push(entry);
    Ok(())
}

/// Adds `key=value` to properties or attributes.
fn add_property(
    properties: &mut Vec<Property>,
    word: &str,
    rest: &[u8],
    limit: usize,
) -> Parsed<()> {
    let equals = rest
        .iter()
        .position(|&byte| byte == b'=')
        .ok_or_else(|| format!("`{word}` takes key=value"))?;
    let property = Property {
        key: text_within("key", &rest[..equals], 1..=sizes::PROPERTY_KEY)?,
        value: text_within("value", &rest[equals + 1..], 0..=sizes::PROPERTY_VALUE)?,
    };
    if value_of(properties, &property.key).is_some() {
        return Err(format!("a second `{word}` with this key"));
    }
    if properties.len() == limit {
        return Err(format!("at most {limit} of `{word}`"));
    }
    properties.push(property);
    Ok(())
}

/// Adds a run of the form `place template`.
fn add_run(runs: &mut Vec<Run>, run_type: RunType, rest: &[u8]) -> Parsed<()> {
    let word = run_type.name();
    let blank = rest
        .iter()
        .position(|&byte| is_blank(byte))
        .ok_or_else(|| format!("`{word}` takes a place (0 is none) and a template"))?;
    let (place, template) = rest.split_at(blank);
    let template = text_within("template", without_blanks_around(template), 1..=sizes::RUN)?;
    if runs.len() == sizes::RUNS {
        return Err(format!("at most {} runs", sizes::RUNS));
    }
    runs.push(Run {
        run_type,
        matched: parse_number(place, 0, sizes::CHAIN)?,
        template: Template::read(&template).ok_or("the template is not well formed")?,
    });
    Ok(())
}

pub(crate) fn text_within(
    what: &str,
    written: &[u8],
    lengths: std::ops::RangeInclusive<usize>,
) -> Parsed<Vec<u8>> {
    let text = unescape(written)?;
    if lengths.contains(&text.len()) {
        Ok(text)
    } else {
        Err(format!(
            "the {what} has {} bytes; it takes {} to {}",
            text.len(),
            lengths.start(),
            lengths.end()
        ))
    }
}

/// The bytes of a text in which a backslash stands only in `\xHH`.
fn unescape(written: &[u8]) -> Parsed<Vec<u8>> {
    let mut text = Vec::new();
    let mut rest = written;
    while let Some((&byte, after)) = rest.split_first() {
        if byte == b'\\' {
            let digits = after
                .strip_prefix(b"x")
                .and_then(|digits| digits.get(..2))
                .ok_or("a backslash stands only in `\\xHH`; write it as `\\x5c`")?;
            text.push(parse_hexadecimal(digits)?);
            rest = &after[3..];
        } else {
            text.push(byte);
            rest = after;
        }
    }
    if text.contains(&0) {
        return Err(String::from("a record holds no NUL"));
    }
    Ok(text)
}

fn parse_hexadecimal(digits: &[u8]) -> Parsed<u8> {
    let is_digits = digits.iter().all(u8::is_ascii_hexdigit);
    std::str::from_utf8(digits)
        .ok()
        .filter(|_| is_digits)
        .and_then(|digits| u8::from_str_radix(digits, 16).ok())
        .ok_or_else(|| String::from("`\\x` takes two hexadecimal digits"))
}

/// The text form of a device.
pub fn show_device(device: &Device) -> String {
    let mut form = format!("action {}\n", device.action.name());
    if let Some(Node { major, minor }) = device.node {
        form += &format!("node {major} {minor}\n");
    }
    for property in &device.properties {
        form += &format!("property {}\n", escape_property(property));
    }
    for device in &device.chain {
        form += &format!("device {}\n", escape(&device.path));
        if !device.subsystem.is_empty() {
            form += &format!("  subsystem {}\n", escape(&device.subsystem));
        }
        if !device.driver.is_empty() {
            form += &format!("  driver {}\n", escape(&device.driver));
        }
        for attribute in &device.attributes {
            form += &format!("  attribute {}\n", escape_property(attribute));
        }
    }
    form
}

/// The text form of an outcome.
pub fn show_outcome(outcome: &Outcome) -> String {
    let mut form = String::new();
    if outcome.closed != Closed::default() {
        form += &format!("closed {}\n", closed_words(&outcome.closed).join(" "));
    }
    if let Some(owner) = &outcome.owner {
        form += &format!("owner {}\n", escape(owner));
    }
    if let Some(group) = &outcome.group {
        form += &format!("group {}\n", escape(group));
    }
    if let Some(mode) = outcome.mode {
        form += &format!("mode {mode:04o}\n");
    }
    form += &format!("priority {}\n", outcome.priority);
    if let Some(word) = outcome.watch.word() {
        form += &format!("{word}\n");
    }
    if !outcome.output.is_empty() {
        form += &format!("output {}\n", escape(&outcome.output));
    }
    for link in &outcome.links {
        form += &format!("link {}\n", escape(link));
    }
    for property in &outcome.properties {
        form += &format!("property {}\n", escape_property(property));
    }
    for tag in &outcome.tags {
        form += &format!("tag {}\n", escape(tag));
    }
    for run in &outcome.runs {
        let template = escape(run.template.written());
        form += &format!("{} {} {template}\n", run.run_type.name(), run.matched);
    }
    form
}

/// The entries of a run list, each with its type.
pub fn show_run_list(run_list: &RunList) -> String {
    let line = |entry: &RunEntry| format!("{} {}\n", entry.run_type.name(), escape(&entry.text));
    run_list.entries.iter().map(line).collect()
}

fn closed_words(closed: &Closed) -> Vec<&'static str> {
    let flags = [
        (closed.links, "links"),
        (closed.tags, "tags"),
        (closed.runs, "runs"),
        (closed.owner, "owner"),
        (closed.group, "group"),
        (closed.mode, "mode"),
    ];
    flags
        .into_iter()
        .filter_map(|(is_closed, word)| is_closed.then_some(word))
        .collect()
}

fn escape_property(property: &Property) -> String {
    let key = escape(&property.key).replace('=', "\\x3d");
    format!("{key}={}", escape(&property.value))
}

/// Escapes what cannot be seen: bytes outside ASCII, and spaces at the ends.
pub(crate) fn escape(text: &[u8]) -> String {
    let last = text.len().saturating_sub(1);
    let shown = |(index, &byte): (usize, &u8)| match byte {
        b'\\' => String::from("\\x5c"),
        b' ' if index != 0 && index != last => String::from(" "),
        33..=126 => char::from(byte).to_string(),
        _ => format!("\\x{byte:02x}"),
    };
    text.iter().enumerate().map(shown).collect()
}
