//! Limits of the records, in bytes or entries.

pub const DEVICE_MOST: usize = 16_384;
pub const CHAIN_MOST: usize = 16;
pub const PATH_MOST: usize = 256;
/// Of a subsystem and of a driver.
pub const WORD_MOST: usize = 63;
pub const ATTRIBUTES_MOST: usize = 31;
pub const PROPERTIES_MOST: usize = 32;
/// Of the name of a property or an attribute.
pub const NAME_MOST: usize = 64;
/// Of the value of a property or an attribute.
pub const VALUE_MOST: usize = 256;
pub const MAJOR_MOST: u32 = 4_095;
pub const MINOR_MOST: u32 = 1_048_575;

pub const LINKS_MOST: usize = 16;
pub const LINK_MOST: usize = 128;
pub const TAGS_MOST: usize = 16;
pub const TAG_MOST: usize = 64;
pub const RUNS_MOST: usize = 16;
pub const RUN_MOST: usize = 256;
/// Of an owner and of a group.
pub const OWNER_MOST: usize = 32;
pub const MODE_DIGITS_MOST: usize = 4;
/// Of an outcome record and of a reply.
pub const OUTPUT_MOST: usize = 512;

pub const SHEET_MOST: usize = 32_768;
pub const REPLIES_MOST: usize = 64;
pub const COMMAND_MOST: usize = 512;
