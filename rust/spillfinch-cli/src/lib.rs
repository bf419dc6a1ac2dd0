//! The command `spillfinch`: udev rules files tested against recorded devices.
//!
//! The proved engine judges every rules text and every record. Everything else here is about
//! files in and text out.

pub mod cases;
pub mod check;
pub mod commands;
pub mod device;
pub mod files;
pub mod listing;
pub mod progress;
pub mod report;
pub mod rules_files;
pub mod running;
pub mod syntax;
