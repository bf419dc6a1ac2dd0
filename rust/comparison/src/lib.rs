//! The compiled engine, linked in, beside the reference.

pub mod linked;
pub mod stack;
pub mod workloads;

pub use linked::{Linked, LinkedApart};
