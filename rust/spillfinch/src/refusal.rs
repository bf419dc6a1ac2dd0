//! Why an input is refused.

use std::fmt;

/// The refusals; the discriminant is the number that the library gives.
#[derive(Clone, Copy, Debug, PartialEq, Eq, PartialOrd, Ord)]
#[repr(u32)]
pub enum Refusal {
    TargetShort = 1,
    TextLong = 2,
    DeviceBad = 3,
    OutcomeBad = 4,
    TooNew = 5,
    SheetBad = 6,
    SetBad = 7,
    LineBad = 10,
    KeyBad = 11,
    ArgumentBad = 12,
    OperatorBad = 13,
    ValueBad = 14,
    ContentBad = 15,
    PairExtra = 16,
    CommaMissing = 17,
    RuleExtra = 18,
    LabelMissing = 19,
    LineOpen = 20,
    FileTwice = 21,
    SubstitutionLong = 30,
    LinkBad = 31,
    ListFull = 32,
    OwnerBad = 33,
    ModeBad = 34,
    CommandMissing = 35,
    ModeShared = 36,
}

use Refusal::*;

impl Refusal {
    pub const ALL: [Refusal; 26] = [
        TargetShort,
        TextLong,
        DeviceBad,
        OutcomeBad,
        TooNew,
        SheetBad,
        SetBad,
        LineBad,
        KeyBad,
        ArgumentBad,
        OperatorBad,
        ValueBad,
        ContentBad,
        PairExtra,
        CommaMissing,
        RuleExtra,
        LabelMissing,
        LineOpen,
        FileTwice,
        SubstitutionLong,
        LinkBad,
        ListFull,
        OwnerBad,
        ModeBad,
        CommandMissing,
        ModeShared,
    ];

    pub fn number(self) -> u32 {
        self as u32
    }

    pub fn of_number(number: u32) -> Option<Refusal> {
        Refusal::ALL
            .into_iter()
            .find(|refusal| refusal.number() == number)
    }

    /// What is wrong, in a few words.
    pub fn text(self) -> &'static str {
        match self {
            TargetShort => "the room for the result is too small",
            TextLong => "the rules text is longer than 32768 bytes",
            DeviceBad => "the device record is faulty",
            OutcomeBad => "the outcome record is faulty",
            TooNew => "edition 1 has no room for an output, watch or nowatch",
            SheetBad => "the answer sheet is faulty",
            SetBad => "the set is over its size, or is not laid out as one",
            LineBad => "line longer than 1024 bytes, or with a NUL byte",
            KeyBad => "unknown or missing key",
            ArgumentBad => "argument in braces missing, faulty or not taken",
            OperatorBad => "operator missing, or not one of this key",
            ValueBad => {
                "value not in quotation marks, with an unknown escape, or longer than 256 bytes"
            }
            ContentBad => "value not of the kind that its key takes",
            PairExtra => "more than 32 pairs, or a second LABEL or GOTO",
            CommaMissing => "neither a comma nor the end of the line",
            RuleExtra => "more than 512 rules",
            LabelMissing => "GOTO without a later LABEL",
            LineOpen => "backslash at the end that no line follows",
            FileTwice => "two files with one name and one rank",
            SubstitutionLong => "substituted text longer than 512 bytes",
            LinkBad => "link name over 128 bytes, or absolute, or with an empty, `.` or `..` part",
            ListFull => "no room for one more link, tag, program or property",
            OwnerBad => "owner or group that is no name of 1 to 32 bytes",
            ModeBad => "mode that is not 1 to 4 octal digits",
            CommandMissing => "command that is not on the answer sheet",
            ModeShared => "mode that lets others write",
        }
    }
}

impl fmt::Display for Refusal {
    fn fmt(&self, f: &mut fmt::Formatter) -> fmt::Result {
        f.write_str(self.text())
    }
}

/// A refusal and the line of the rules text that it is about.
#[derive(Clone, Copy, Debug, PartialEq, Eq)]
pub struct Refused {
    pub refusal: Refusal,
    /// From 1; 0 if the refusal is about no line.
    pub line: u32,
}

impl fmt::Display for Refused {
    fn fmt(&self, f: &mut fmt::Formatter) -> fmt::Result {
        write!(f, "refused {} line {}", self.refusal.number(), self.line)
    }
}

impl std::error::Error for Refused {}

/// A refusal of a set, and the record that it is about.
#[derive(Clone, Copy, Debug, PartialEq, Eq)]
pub struct RefusedSet {
    pub refusal: Refusal,
    /// From 1 in the lent order; 0 if the refusal is about the set as a whole.
    pub position: u32,
}

impl RefusedSet {
    /// Of what cannot be laid out as a set.
    pub(crate) const NO_SET: RefusedSet = RefusedSet {
        refusal: SetBad,
        position: 0,
    };
}

impl fmt::Display for RefusedSet {
    fn fmt(&self, f: &mut fmt::Formatter) -> fmt::Result {
        let number = self.refusal.number();
        write!(f, "refused {number} record {}", self.position)
    }
}

impl std::error::Error for RefusedSet {}

/// A refusal of a set of files, and the file that it is about.
#[derive(Clone, Copy, Debug, PartialEq, Eq)]
pub struct RefusedFile {
    /// The line is one of the file.
    pub refused: Refused,
    /// From 1 in the lent order; 0 if the refusal is about no file.
    pub position: u32,
}

/// A refusal that is about no file.
impl From<Refused> for RefusedFile {
    fn from(refused: Refused) -> RefusedFile {
        RefusedFile {
            refused,
            position: 0,
        }
    }
}

impl fmt::Display for RefusedFile {
    fn fmt(&self, f: &mut fmt::Formatter) -> fmt::Result {
        write!(f, "{} file {}", self.refused, self.position)
    }
}

impl std::error::Error for RefusedFile {}
