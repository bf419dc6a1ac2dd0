//! The limits of documents 01 and 02, in bytes or entries.

pub const TEXT: usize = 32_768;
pub const LINE: usize = 1_024;
pub const VALUE: usize = 256;
pub const ARGUMENT: usize = 64;
pub const PAIRS: usize = 32;
pub const RULES: usize = 512;

pub const DEVICE_RECORD: usize = 16_384;
pub const CHAIN: usize = 16;
pub const PATH: usize = 256;
pub const SUBSYSTEM: usize = 63;
pub const DRIVER: usize = 63;
pub const ATTRIBUTES: usize = 31;

pub const PROPERTIES: usize = 32;
/// Also the limit for attribute names.
pub const PROPERTY_KEY: usize = 64;
/// Also the limit for attribute values.
pub const PROPERTY_VALUE: usize = 256;

pub const SUBSTITUTED: usize = 512;
pub const LINKS: usize = 16;
pub const LINK: usize = 128;
pub const TAGS: usize = 16;
pub const TAG: usize = 64;
pub const RUNS: usize = 16;
pub const RUN: usize = 256;
/// Also the limit for the group.
pub const OWNER: usize = 32;
pub const MODE_DIGITS: usize = 4;

/// The output of a program that an outcome keeps.
pub const OUTPUT: usize = 512;

/// The packed answer sheet, its entries and a command of these.
pub const SHEET: usize = 32_768;
pub const SHEET_ENTRIES: usize = 64;
pub const COMMAND: usize = 512;

/// The numbers of an answer.
pub const ANSWER: usize = 8;

/// The fullest outcome record, and so the least room for a target of one.
pub const OUTCOME_TARGET: usize = 18_125;
/// The same of edition 1.
pub const OLD_OUTCOME_TARGET: usize = 17_611;
/// The records of a set, each with its device.
pub const SET_RECORDS: usize = 64;
/// The list of a contest in which each record claims all the links that it can, none of them
/// another's.
pub const CONTEST_TARGET: usize = SET_RECORDS * LINKS * (3 + LINK);
/// The files of a set, and the name of one.
pub const SET_FILES: usize = 32;
pub const FILE_NAME: usize = 64;
/// The devices of a set with a wanted link each, and the event path that a plan can name.
pub const SET_WANTED: usize = 16;
pub const PLANNED_PATH: usize = 128;
/// The fullest run list, and so the least room for a target of one.
pub const RUN_LIST_TARGET: usize = 8_225;
/// The struck lines of a text, and so the least room for a list of them.
pub const STRIKES: usize = 16_384;
