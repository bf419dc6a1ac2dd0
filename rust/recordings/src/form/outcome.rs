//! The text form of outcome records.

use super::{bytes_within, each_line, entry_line, is_blank, number, trim, FormError, Line, Taken};
use crate::escape::escape_for_form;
use crate::outcome::{Outcome, Run, RunType, Watch, CLOSABLE};
use crate::sizes;

/// The outcome that a text form describes. Whether its templates are well formed, and its
/// places within a chain, is for the engine to say.
pub fn read_outcome(form: &[u8]) -> Result<Outcome, FormError> {
    let mut reading = Reading::default();
    each_line(form, |line| reading.take(line))?;
    Ok(reading.finish())
}

/// The text form of an outcome.
pub fn write_outcome(outcome: &Outcome) -> String {
    let mut form = String::new();
    if outcome.closed.contains(&true) {
        form += "closed";
        for (word, _) in CLOSABLE.iter().zip(outcome.closed).filter(|(_, is)| *is) {
            form += &format!(" {word}");
        }
        form += "\n";
    }
    for (word, name) in [("owner", &outcome.owner), ("group", &outcome.group)] {
        if !name.is_empty() {
            form += &format!("{word} {}\n", escape_for_form(name));
        }
    }
    if let Some(mode) = outcome.mode {
        form += &format!("mode {mode:04o}\n");
    }
    form += &format!("priority {}\n", outcome.priority);
    if let Some(word) = outcome.watch.word() {
        form += &format!("{word}\n");
    }
    if !outcome.output.is_empty() {
        form += &format!("output {}\n", escape_for_form(&outcome.output));
    }
    for link in &outcome.links {
        form += &format!("link {}\n", escape_for_form(link));
    }
    for property in &outcome.properties {
        form += &entry_line("property", property);
    }
    for tag in &outcome.tags {
        form += &format!("tag {}\n", escape_for_form(tag));
    }
    for run in &outcome.runs {
        let template = escape_for_form(&run.template);
        form += &format!("{} {} {template}\n", run.run_type.name(), run.place);
    }
    form
}

#[derive(Default)]
struct Reading {
    closed: Option<[bool; 6]>,
    owner: Option<Vec<u8>>,
    group: Option<Vec<u8>>,
    mode: Option<u32>,
    priority: Option<i32>,
    watch: Option<Watch>,
    output: Option<Vec<u8>>,
    lists: Outcome,
}

impl Reading {
    fn take(&mut self, line: &Line) -> Taken<()> {
        let lists = &mut self.lists;
        match line.word.as_str() {
            "closed" => line.set_once(&mut self.closed, closed(line)?),
            "owner" => line.set_once(&mut self.owner, owner(line)?),
            "group" => line.set_once(&mut self.group, owner(line)?),
            "mode" => line.set_once(&mut self.mode, mode(line)?),
            "priority" => {
                let priority = number(line.text, i32::MIN..=i32::MAX)?;
                line.set_once(&mut self.priority, priority)
            }
            "watch" => self.set_watch(line, Watch::Watch),
            "nowatch" => self.set_watch(line, Watch::NoWatch),
            "output" => {
                let output = line.bytes(0..=sizes::OUTPUT_MOST)?;
                line.set_once(&mut self.output, output)
            }
            "link" => line.add_name(&mut lists.links, link(line)?, sizes::LINKS_MOST),
            "property" => line.add_entry(&mut lists.properties, sizes::PROPERTIES_MOST),
            "tag" => {
                let tag = line.bytes(1..=sizes::TAG_MOST)?;
                line.add_name(&mut lists.tags, tag, sizes::TAGS_MOST)
            }
            "program" => add_run(&mut lists.runs, line, RunType::Program),
            "builtin" => add_run(&mut lists.runs, line, RunType::Builtin),
            word => Err(format!(
                "unknown word `{}`; an outcome has closed, owner, group, mode, priority, watch, \
                 nowatch, output, link, property, tag, program and builtin",
                escape_for_form(word.as_bytes())
            )),
        }
    }

    fn set_watch(&mut self, line: &Line, watch: Watch) -> Taken<()> {
        if !line.text.is_empty() {
            return Err(format!("`{}` stands alone", line.word));
        }
        match self.watch.replace(watch) {
            None => Ok(()),
            Some(_) => Err(String::from("a second `watch` or `nowatch`")),
        }
    }

    fn finish(self) -> Outcome {
        Outcome {
            closed: self.closed.unwrap_or_default(),
            owner: self.owner.unwrap_or_default(),
            group: self.group.unwrap_or_default(),
            mode: self.mode,
            priority: self.priority.unwrap_or(0),
            watch: self.watch.unwrap_or_default(),
            output: self.output.unwrap_or_default(),
            ..self.lists
        }
    }
}

fn closed(line: &Line) -> Taken<[bool; 6]> {
    let words = line.words();
    match words
        .iter()
        .all(|word| CLOSABLE.iter().any(|key| key.as_bytes() == *word))
    {
        true => Ok(CLOSABLE.map(|key| words.contains(&key.as_bytes()))),
        false => Err(format!("`closed` takes some of {}", CLOSABLE.join(", "))),
    }
}

fn owner(line: &Line) -> Taken<Vec<u8>> {
    let is_plain = |byte: &u8| byte.is_ascii_alphanumeric() || b"_-.".contains(byte);
    let most = sizes::OWNER_MOST;
    if (1..=most).contains(&line.text.len()) && line.text.iter().all(is_plain) {
        return Ok(line.text.to_vec());
    }
    Err(format!(
        "`{}` takes 1 to {most} letters, digits, `_`, `-` or `.`",
        line.word
    ))
}

fn mode(line: &Line) -> Taken<u32> {
    let is_octal = line.text.iter().all(|byte| matches!(byte, b'0'..=b'7'));
    let digits = std::str::from_utf8(line.text).unwrap_or_default();
    if is_octal && (1..=sizes::MODE_DIGITS_MOST).contains(&digits.len()) {
        return u32::from_str_radix(digits, 8).map_err(|error| error.to_string());
    }
    Err(String::from("`mode` takes 1 to 4 octal digits"))
}

fn link(line: &Line) -> Taken<Vec<u8>> {
    let link = line.bytes(1..=sizes::LINK_MOST)?;
    let mut components = link.split(|&byte| byte == b'/');
    if components.any(|component| matches!(component, b"" | b"." | b"..")) {
        return Err(String::from(
            "a link starts with no `/` and has no empty, `.` or `..` component",
        ));
    }
    Ok(link)
}

/// Adds a run, of which the line has the place and the template.
fn add_run(runs: &mut Vec<Run>, line: &Line, run_type: RunType) -> Taken<()> {
    let Some(blank) = line.text.iter().position(is_blank) else {
        let word = &line.word;
        return Err(format!(
            "`{word}` takes a place (0 for none) and a template"
        ));
    };
    let (place, template) = line.text.split_at(blank);
    runs.push(Run {
        run_type,
        place: number(place, 0..=sizes::CHAIN_MOST)?,
        template: bytes_within("template", trim(template), 1..=sizes::RUN_MOST)?,
    });
    match runs.len() <= sizes::RUNS_MOST {
        true => Ok(()),
        false => Err(format!("more than {} runs", sizes::RUNS_MOST)),
    }
}
