//! The keys, the operators and which go together.

#[derive(Clone, Copy, Debug, PartialEq, Eq, PartialOrd, Ord)]
pub enum Key {
    Action,
    Devpath,
    Kernel,
    Kernels,
    Subsystem,
    Subsystems,
    Driver,
    Drivers,
    Attr,
    Attrs,
    Env,
    Symlink,
    Tag,
    Program,
    Result,
    Owner,
    Group,
    Mode,
    Run,
    Label,
    Goto,
    Options,
}

impl Key {
    pub fn name(self) -> &'static str {
        let row = KEYS.iter().find(|row| row.key == self);
        row.expect("every key has a row").name
    }
}

#[derive(Clone, Copy, Debug, PartialEq, Eq, PartialOrd, Ord)]
pub enum Operator {
    Equal,
    Unequal,
    Assign,
    Add,
    Remove,
    AssignFinally,
}

use Operator::{Add, Assign, AssignFinally, Equal, Remove, Unequal};

impl Operator {
    pub const ALL: [Operator; 6] = [Equal, Unequal, Assign, Add, Remove, AssignFinally];

    pub fn symbol(self) -> &'static str {
        match self {
            Equal => "==",
            Unequal => "!=",
            Assign => "=",
            Add => "+=",
            Remove => "-=",
            AssignFinally => ":=",
        }
    }

    pub fn is_match(self) -> bool {
        matches!(self, Equal | Unequal)
    }

    /// Whether it empties a list before it adds to it.
    pub fn empties(self) -> bool {
        matches!(self, Assign | AssignFinally)
    }

    pub fn closes(self) -> bool {
        self == AssignFinally
    }
}

#[derive(Clone, Copy, Debug, PartialEq, Eq)]
pub enum ArgumentRule {
    None,
    Name,
    RunTypeOrNone,
}

#[derive(Debug)]
pub struct KeyRow {
    pub key: Key,
    pub name: &'static str,
    pub argument: ArgumentRule,
    pub operators: &'static [Operator],
}

const MATCHES: &[Operator] = &[Equal, Unequal];
const ASSIGNMENTS: &[Operator] = &[Assign, AssignFinally];

const fn row(
    key: Key,
    name: &'static str,
    argument: ArgumentRule,
    operators: &'static [Operator],
) -> KeyRow {
    KeyRow {
        key,
        name,
        argument,
        operators,
    }
}

pub const KEYS: [KeyRow; 22] = [
    row(Key::Action, "ACTION", ArgumentRule::None, MATCHES),
    row(Key::Devpath, "DEVPATH", ArgumentRule::None, MATCHES),
    row(Key::Kernel, "KERNEL", ArgumentRule::None, MATCHES),
    row(Key::Kernels, "KERNELS", ArgumentRule::None, MATCHES),
    row(Key::Subsystem, "SUBSYSTEM", ArgumentRule::None, MATCHES),
    row(Key::Subsystems, "SUBSYSTEMS", ArgumentRule::None, MATCHES),
    row(Key::Driver, "DRIVER", ArgumentRule::None, MATCHES),
    row(Key::Drivers, "DRIVERS", ArgumentRule::None, MATCHES),
    row(Key::Attr, "ATTR", ArgumentRule::Name, MATCHES),
    row(Key::Attrs, "ATTRS", ArgumentRule::Name, MATCHES),
    row(
        Key::Env,
        "ENV",
        ArgumentRule::Name,
        &[Equal, Unequal, Assign],
    ),
    row(Key::Symlink, "SYMLINK", ArgumentRule::None, &Operator::ALL),
    row(Key::Tag, "TAG", ArgumentRule::None, &Operator::ALL),
    row(
        Key::Program,
        "PROGRAM",
        ArgumentRule::None,
        &[Equal, Unequal, Assign, Add, AssignFinally],
    ),
    row(Key::Result, "RESULT", ArgumentRule::None, MATCHES),
    row(Key::Owner, "OWNER", ArgumentRule::None, ASSIGNMENTS),
    row(Key::Group, "GROUP", ArgumentRule::None, ASSIGNMENTS),
    row(Key::Mode, "MODE", ArgumentRule::None, ASSIGNMENTS),
    row(
        Key::Run,
        "RUN",
        ArgumentRule::RunTypeOrNone,
        &[Assign, Add, AssignFinally],
    ),
    row(Key::Label, "LABEL", ArgumentRule::None, &[Assign]),
    row(Key::Goto, "GOTO", ArgumentRule::None, &[Assign]),
    row(Key::Options, "OPTIONS", ArgumentRule::None, &[Assign, Add]),
];
