//! The keys that the engine reads, with what each takes.

#[derive(Clone, Copy, Debug, PartialEq, Eq)]
pub enum Key {
    Action,
    Devpath,
    Kernel,
    Kernels,
    Subsystem,
    Subsystems,
    Driver,
    Drivers,
    Attr,
    Attrs,
    Env,
    Program,
    Result,
    Symlink,
    Tag,
    Owner,
    Group,
    Mode,
    Run,
    Label,
    Goto,
    Options,
}

#[derive(Clone, Copy, Debug, PartialEq, Eq)]
pub enum Operator {
    Equal,
    Unequal,
    Assign,
    Add,
    Remove,
    AssignFinally,
}

/// What stands in braces behind a key.
#[derive(Clone, Copy, Debug, PartialEq, Eq)]
pub enum Argument {
    None,
    Name,
    /// `program`, `builtin` or nothing.
    RunType,
}

use Operator::{Add, Assign, AssignFinally, Equal, Remove, Unequal};

const MATCHES: &[Operator] = &[Equal, Unequal];
const SETS: &[Operator] = &[Assign, AssignFinally];

const ROWS: [(Key, &str, Argument, &[Operator]); 22] = [
    (Key::Action, "ACTION", Argument::None, MATCHES),
    (Key::Devpath, "DEVPATH", Argument::None, MATCHES),
    (Key::Kernel, "KERNEL", Argument::None, MATCHES),
    (Key::Kernels, "KERNELS", Argument::None, MATCHES),
    (Key::Subsystem, "SUBSYSTEM", Argument::None, MATCHES),
    (Key::Subsystems, "SUBSYSTEMS", Argument::None, MATCHES),
    (Key::Driver, "DRIVER", Argument::None, MATCHES),
    (Key::Drivers, "DRIVERS", Argument::None, MATCHES),
    (Key::Attr, "ATTR", Argument::Name, MATCHES),
    (Key::Attrs, "ATTRS", Argument::Name, MATCHES),
    (Key::Env, "ENV", Argument::Name, &[Equal, Unequal, Assign]),
    (
        Key::Program,
        "PROGRAM",
        Argument::None,
        &[Equal, Unequal, Assign, Add, AssignFinally],
    ),
    (Key::Result, "RESULT", Argument::None, MATCHES),
    (Key::Symlink, "SYMLINK", Argument::None, &Operator::ALL),
    (Key::Tag, "TAG", Argument::None, &Operator::ALL),
    (Key::Owner, "OWNER", Argument::None, SETS),
    (Key::Group, "GROUP", Argument::None, SETS),
    (Key::Mode, "MODE", Argument::None, SETS),
    (
        Key::Run,
        "RUN",
        Argument::RunType,
        &[Assign, Add, AssignFinally],
    ),
    (Key::Label, "LABEL", Argument::None, &[Assign]),
    (Key::Goto, "GOTO", Argument::None, &[Assign]),
    (Key::Options, "OPTIONS", Argument::None, &[Assign, Add]),
];

/// Keys of udev that the engine does not read.
pub const UNREAD: [&str; 7] = [
    "CONST", "IMPORT", "NAME", "SECLABEL", "SYSCTL", "TAGS", "TEST",
];

impl Key {
    fn row(self) -> &'static (Key, &'static str, Argument, &'static [Operator]) {
        let row = ROWS.iter().find(|row| row.0 == self);
        row.expect("every key has its row")
    }

    pub fn named(name: &[u8]) -> Option<Key> {
        let row = ROWS.iter().find(|row| row.1.as_bytes() == name)?;
        Some(row.0)
    }

    pub fn names() -> impl Iterator<Item = &'static str> {
        ROWS.iter().map(|row| row.1)
    }

    pub fn name(self) -> &'static str {
        self.row().1
    }

    pub fn argument(self) -> Argument {
        self.row().2
    }

    pub fn operators(self) -> &'static [Operator] {
        self.row().3
    }

    /// Whether it is judged with this operator, not assigned to; PROGRAM is with every one.
    pub fn is_judged(self, operator: Operator) -> bool {
        operator.is_match() || self == Key::Program
    }

    /// Whether its value with this operator is a template.
    pub fn takes_template(self, operator: Operator) -> bool {
        match self {
            Key::Program => true,
            Key::Symlink | Key::Owner | Key::Group | Key::Mode | Key::Run => !operator.is_match(),
            _ => false,
        }
    }

    /// Whether it is judged at each device of the chain.
    pub fn is_of_parents(self) -> bool {
        matches!(
            self,
            Key::Kernels | Key::Subsystems | Key::Drivers | Key::Attrs
        )
    }
}

impl Operator {
    /// A longer one before those that it begins with.
    pub const ALL: [Operator; 6] = [Equal, Unequal, Add, Remove, AssignFinally, Assign];

    pub fn symbol(self) -> &'static str {
        match self {
            Equal => "==",
            Unequal => "!=",
            Assign => "=",
            Add => "+=",
            Remove => "-=",
            AssignFinally => ":=",
        }
    }

    pub fn is_match(self) -> bool {
        matches!(self, Equal | Unequal)
    }
}
