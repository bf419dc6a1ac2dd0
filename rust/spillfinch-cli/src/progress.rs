//! A line that tells on a terminal how far a long command is.

use std::io::{self, IsTerminal, Write};
use std::time::{Duration, Instant};

/// A command that takes no longer tells nothing.
const QUIET: Duration = Duration::from_secs(1);
const BETWEEN: Duration = Duration::from_millis(100);
const ERASE_LINE: &str = "\r\x1b[K";

pub struct Progress {
    total: usize,
    is_shown: bool,
    next: Instant,
    has_line: bool,
}

impl Progress {
    pub fn new(total: usize) -> Progress {
        Progress {
            total,
            is_shown: io::stderr().is_terminal(),
            next: Instant::now() + QUIET,
            has_line: false,
        }
    }

    /// So many are done.
    pub fn at(&mut self, done: usize) {
        let now = Instant::now();
        if !self.is_shown || now < self.next {
            return;
        }
        self.next = now + BETWEEN;
        self.has_line = true;
        self.write(&format!("{ERASE_LINE}{done} of {} cases", self.total));
    }

    fn write(&self, text: &str) {
        // A line that cannot be shown is no reason to stop.
        let _ = io::stderr().write_all(text.as_bytes());
    }
}

impl Drop for Progress {
    fn drop(&mut self) {
        if self.has_line {
            self.write(ERASE_LINE);
        }
    }
}
