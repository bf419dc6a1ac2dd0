//! What a command says, and how it ends.

use std::collections::HashSet;
use std::fmt;
use std::io::{self, ErrorKind, Write};
use std::process::ExitCode;

/// How a command ends; the number is the exit status.
#[derive(Clone, Copy, Debug, PartialEq, Eq, PartialOrd, Ord)]
pub enum Status {
    Well = 0,
    /// Something was refused or is not as expected.
    Refused = 1,
    /// Bad usage, or a file that cannot be read.
    Failed = 2,
}

/// Nothing is written before a command has ended.
#[derive(Debug)]
pub struct Report {
    /// For standard output.
    pub results: Vec<u8>,
    /// For standard error.
    messages: String,
    /// The messages that are not to be repeated.
    said: HashSet<String>,
    pub status: Status,
}

/// Why a command could not do its work.
#[derive(Clone, Debug, PartialEq, Eq)]
pub struct Failure(pub String);

impl fmt::Display for Failure {
    fn fmt(&self, f: &mut fmt::Formatter) -> fmt::Result {
        write!(f, "spillfinch: {}", self.0)
    }
}

impl Default for Report {
    fn default() -> Report {
        Report {
            results: Vec::new(),
            messages: String::new(),
            said: HashSet::new(),
            status: Status::Well,
        }
    }
}

impl From<Failure> for Report {
    fn from(failure: Failure) -> Report {
        Report {
            messages: format!("{failure}\n"),
            status: Status::Failed,
            ..Report::default()
        }
    }
}

impl Report {
    pub fn result(&mut self, line: &str) {
        self.results.extend_from_slice(line.as_bytes());
        self.results.push(b'\n');
    }

    pub fn message(&mut self, line: &str) {
        self.messages.push_str(line);
        self.messages.push('\n');
    }

    /// A message that is not repeated.
    pub fn message_once(&mut self, line: &str) {
        if self.said.insert(line.to_string()) {
            self.message(line);
        }
    }

    /// Ends at least as badly as that.
    pub fn ends(&mut self, status: Status) {
        self.status = self.status.max(status);
    }

    /// Writes both streams.
    pub fn print(mut self) -> ExitCode {
        let mut out = io::stdout().lock();
        let written = out.write_all(&self.results).and_then(|()| out.flush());
        match written {
            Err(error) if error.kind() != ErrorKind::BrokenPipe => {
                let failure = Failure(format!("standard output: {error}"));
                self.message(&failure.to_string());
                self.ends(Status::Failed);
            }
            _ => {}
        }
        // There is nowhere left to say that standard error cannot be written.
        let _ = io::stderr().write_all(self.messages.as_bytes());
        ExitCode::from(self.status as u8)
    }
}
