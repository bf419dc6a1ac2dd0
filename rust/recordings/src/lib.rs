//! Device and outcome records and answer sheets: packed, in their text form, and made from
//! recordings of devices.
//!
//! Nothing here judges a record. What is read or made is packed, and the engine accepts or
//! refuses it.

pub mod device;
pub mod escape;
pub mod form;
pub mod import;
pub mod outcome;
mod packed;
pub mod recording;
pub mod sheet;
pub mod sizes;

pub use device::{Action, ChainDevice, Device, Node};
pub use outcome::{Outcome, RunList, Watch};
pub use packed::Entry;
pub use sheet::{Reply, Sheet};
