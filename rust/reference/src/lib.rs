//! A plain implementation of the udev rules engine that document 01 lays down, with a
//! generator of cases and a harness that compares it with another engine.

pub mod bytes;
pub mod case_files;
pub mod claims;
pub mod compare;
pub mod content;
pub mod contest;
pub mod coverage;
pub mod device;
pub mod engine;
pub mod extra_replies;
pub mod file_set;
pub mod generate;
pub mod joined;
pub mod key;
pub mod lines;
pub mod link;
pub mod listing;
pub mod operations;
pub mod outcome;
pub mod pattern;
pub mod plan;
pub mod program;
pub mod property;
pub mod record;
pub mod record_set;
pub mod refusal;
pub mod request;
pub mod rules;
pub mod run_list;
pub mod sheet;
pub mod sheet_form;
pub mod sizes;
pub mod strike;
pub mod template;
pub mod text_form;
pub mod wanted_set;
pub mod writer;

pub use device::Device;
pub use listing::listing;
pub use operations::{
    check, close, contest, fresh, newer, older, plan, plan_check, run, run_each, run_files, strike,
    write, Answer,
};
pub use outcome::Outcome;
pub use sheet::Sheet;
