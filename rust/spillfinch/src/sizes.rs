//! Rooms and limits of `include/spillfinch.h`, in bytes or entries.

/// The fullest outcome record.
pub const OUTCOME_ROOM: usize = 18_125;
/// The fullest outcome record of edition 1.
pub const OLD_OUTCOME_ROOM: usize = 17_611;
/// The fullest run list.
pub const RUN_LIST_ROOM: usize = 8_225;
/// The fullest list of a contest.
pub const CONTEST_ROOM: usize = 134_144;

pub const TEXT_MOST: usize = 32_768;
pub const SHEET_MOST: usize = 32_768;
/// Two numbers for each of the 16,384 lines that can be struck from a text.
pub const STRIKES_ROOM: usize = 32_768;
pub const LINE_MOST: usize = 1_024;
pub const VALUE_MOST: usize = 256;
pub const PAIRS_MOST: usize = 32;
pub const RULES_MOST: usize = 512;
/// Records of a set.
pub const RECORDS_MOST: usize = 64;
/// Files of a set, and bytes of the name of one.
pub const FILES_MOST: usize = 32;
pub const FILE_NAME_MOST: usize = 64;
/// Devices of a naming plan, and bytes of a wanted link.
pub const WANTED_MOST: usize = 16;
pub const WANTED_LINK_MOST: usize = 255;
