//! The refusals and their numbers.

/// What is refused; the discriminant is the number given back.
#[derive(Clone, Copy, Debug, PartialEq, Eq, PartialOrd, Ord)]
#[repr(u32)]
pub enum Fault {
    Target = 1,
    Text = 2,
    DeviceRecord = 3,
    OutcomeRecord = 4,
    NotInEdition1 = 5,
    Sheet = 6,
    Set = 7,
    Line = 10,
    Key = 11,
    Argument = 12,
    Operator = 13,
    Value = 14,
    Content = 15,
    PairCount = 16,
    Separator = 17,
    RuleCount = 18,
    Jump = 19,
    OpenJoin = 20,
    EqualFiles = 21,
    Substituted = 30,
    Link = 31,
    Full = 32,
    OwnerOrGroup = 33,
    Mode = 34,
    Command = 35,
    WorldWritable = 36,
}

impl Fault {
    pub const ALL: &[Fault] = &[
        Fault::Target,
        Fault::Text,
        Fault::DeviceRecord,
        Fault::OutcomeRecord,
        Fault::NotInEdition1,
        Fault::Sheet,
        Fault::Set,
        Fault::Line,
        Fault::Key,
        Fault::Argument,
        Fault::Operator,
        Fault::Value,
        Fault::Content,
        Fault::PairCount,
        Fault::Separator,
        Fault::RuleCount,
        Fault::Jump,
        Fault::OpenJoin,
        Fault::EqualFiles,
        Fault::Substituted,
        Fault::Link,
        Fault::Full,
        Fault::OwnerOrGroup,
        Fault::Mode,
        Fault::Command,
        Fault::WorldWritable,
    ];

    pub fn number(self) -> u32 {
        self as u32
    }

    /// The refusal of something that stands on a line of the text.
    pub fn at_line(self, line: u32) -> Refusal {
        Refusal {
            fault: self,
            line,
            position: 0,
        }
    }

    /// The refusal of something that stands on no line.
    pub fn without_line(self) -> Refusal {
        self.at_line(0)
    }
}

#[derive(Clone, Copy, Debug, PartialEq, Eq)]
pub struct Refusal {
    pub fault: Fault,
    pub line: u32,
    /// Of the record or file of a set, from 1; 0 for none.
    pub position: u32,
}

impl Refusal {
    /// The same for what stands there in a set.
    pub fn at_position(self, position: u32) -> Refusal {
        Refusal { position, ..self }
    }
}
