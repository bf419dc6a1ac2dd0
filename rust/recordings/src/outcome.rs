//! The outcome record, and the run list that a close makes of it.

use crate::packed::{Entry, Reader, Writer};

const EDITION: usize = 2;
/// Edition, the closed keys, owner, group, whether there is a mode, mode, priority, the counts
/// of links, properties, tags and runs, then output, watch, unused.
const HEAD: [u32; 19] = [4, 1, 1, 1, 1, 1, 1, 6, 6, 1, 12, 32, 5, 6, 5, 5, 10, 2, 4];
const NAME: [u32; 1] = [8];
/// Builtin, place, template, unused.
const RUN: [u32; 4] = [1, 5, 9, 1];
/// Entries, unused.
const LIST: [u32; 2] = [5, 3];
/// Builtin, text, unused.
const COMMAND: [u32; 3] = [1, 10, 5];

/// The keys that `:=` closes, in the order of their flags.
pub const CLOSABLE: [&str; 6] = ["links", "tags", "runs", "owner", "group", "mode"];

#[derive(Clone, Copy, Debug, PartialEq, Eq)]
pub enum RunType {
    Program,
    Builtin,
}

impl RunType {
    fn of_flag(flag: usize) -> RunType {
        match flag {
            0 => RunType::Program,
            _ => RunType::Builtin,
        }
    }

    pub fn name(self) -> &'static str {
        match self {
            RunType::Program => "program",
            RunType::Builtin => "builtin",
        }
    }
}

/// Whether the device is watched for changes, as OPTIONS says.
#[derive(Clone, Copy, Debug, Default, PartialEq, Eq)]
pub enum Watch {
    #[default]
    Unset,
    Watch,
    NoWatch,
}

impl Watch {
    fn of_number(number: usize) -> Option<Watch> {
        match number {
            0 => Some(Watch::Unset),
            1 => Some(Watch::Watch),
            2 => Some(Watch::NoWatch),
            _ => None,
        }
    }

    /// The value of OPTIONS that sets it.
    pub fn word(self) -> Option<&'static str> {
        match self {
            Watch::Unset => None,
            Watch::Watch => Some("watch"),
            Watch::NoWatch => Some("nowatch"),
        }
    }
}

#[derive(Clone, Debug, PartialEq, Eq)]
pub struct Run {
    pub run_type: RunType,
    /// The place in the chain of the device that the rule matched, from 1; 0 for none.
    pub place: usize,
    pub template: Vec<u8>,
}

#[derive(Clone, Debug, Default, PartialEq, Eq)]
pub struct Outcome {
    /// A flag for each of `CLOSABLE`.
    pub closed: [bool; 6],
    /// Empty if unset, as the group is.
    pub owner: Vec<u8>,
    pub group: Vec<u8>,
    pub mode: Option<u32>,
    pub priority: i32,
    /// What a program said last; empty if none did.
    pub output: Vec<u8>,
    pub watch: Watch,
    pub links: Vec<Vec<u8>>,
    pub properties: Vec<Entry>,
    pub tags: Vec<Vec<u8>>,
    pub runs: Vec<Run>,
}

impl Outcome {
    /// The packed record, or `None` if a number or a length does not fit into its field.
    pub fn encode(&self) -> Option<Vec<u8>> {
        let mut writer = Writer::default();
        let [links, tags, runs, owner, group, mode] = self.closed.map(usize::from);
        writer.fields(
            HEAD,
            [
                EDITION,
                links,
                tags,
                runs,
                owner,
                group,
                mode,
                self.owner.len(),
                self.group.len(),
                usize::from(self.mode.is_some()),
                self.mode.unwrap_or(0) as usize,
                self.priority as u32 as usize,
                self.links.len(),
                self.properties.len(),
                self.tags.len(),
                self.runs.len(),
                self.output.len(),
                self.watch as usize,
                0,
            ],
        );
        writer.text(&self.output);
        writer.text(&self.owner);
        writer.text(&self.group);
        encode_names(&mut writer, &self.links);
        writer.entries(&self.properties);
        encode_names(&mut writer, &self.tags);
        for run in &self.runs {
            let template = &run.template;
            writer.fields(RUN, [run.run_type as usize, run.place, template.len(), 0]);
            writer.text(template);
        }
        writer.finish()
    }

    /// What a record says, or `None` if it is cut short or laid out otherwise.
    pub fn decode(record: &[u8]) -> Option<Outcome> {
        let mut reader = Reader::new(record);
        let [edition, closed @ .., owner, group, has_mode, mode, priority, links, properties, tags, runs, output, watch, _] =
            reader.fields(HEAD)?;
        if edition != EDITION {
            return None;
        }
        let watch = Watch::of_number(watch)?;
        let output = reader.text(output)?;
        let outcome = Outcome {
            closed: closed.map(|flag| flag == 1),
            owner: reader.text(owner)?,
            group: reader.text(group)?,
            mode: (has_mode == 1).then_some(mode as u32),
            priority: priority as u32 as i32,
            output,
            watch,
            links: decode_names(&mut reader, links)?,
            properties: reader.entries(properties)?,
            tags: decode_names(&mut reader, tags)?,
            runs: (0..runs)
                .map(|_| decode_run(&mut reader))
                .collect::<Option<_>>()?,
        };
        reader.end()?;
        Some(outcome)
    }
}

fn encode_names(writer: &mut Writer, names: &[Vec<u8>]) {
    for name in names {
        writer.fields(NAME, [name.len()]);
        writer.text(name);
    }
}

fn decode_names(reader: &mut Reader, count: usize) -> Option<Vec<Vec<u8>>> {
    let mut name = || {
        let [length] = reader.fields(NAME)?;
        reader.text(length)
    };
    (0..count).map(|_| name()).collect()
}

fn decode_run(reader: &mut Reader) -> Option<Run> {
    let [builtin, place, length, _] = reader.fields(RUN)?;
    Some(Run {
        run_type: RunType::of_flag(builtin),
        place,
        template: reader.text(length)?,
    })
}

/// A program or builtin with its text substituted.
#[derive(Clone, Debug, PartialEq, Eq)]
pub struct Command {
    pub run_type: RunType,
    pub text: Vec<u8>,
}

#[derive(Clone, Debug, Default, PartialEq, Eq)]
pub struct RunList {
    pub commands: Vec<Command>,
}

impl RunList {
    pub fn decode(list: &[u8]) -> Option<RunList> {
        let mut reader = Reader::new(list);
        let [count, _] = reader.fields(LIST)?;
        let mut command = || {
            let [builtin, length, _] = reader.fields(COMMAND)?;
            Some(Command {
                run_type: RunType::of_flag(builtin),
                text: reader.text(length)?,
            })
        };
        let commands = (0..count).map(|_| command()).collect::<Option<_>>()?;
        reader.end()?;
        Some(RunList { commands })
    }
}
