//! A line on standard error that says how far long work has come, where someone is there to read it.
use std::io::{IsTerminal, stderr};
use std::time::{Duration, Instant};

/// Work shorter than this is not told of.
const PATIENCE: Duration = Duration::from_millis(300);

pub struct Progress {
    terminal: bool,
    next: Instant,
    width: usize,
}

impl Progress {
    pub fn new() -> Self {
        Self {
            terminal: stderr().is_terminal(),
            next: Instant::now() + PATIENCE,
            width: 0,
        }
    }

    pub fn tell(&mut self, what: &str, done: u64, of: u64) {
        if !self.terminal || Instant::now() < self.next {
            return;
        }
        let line = format!("pmt: {what} {done} of {of}");
        // spaces over what is left of a longer line
        eprint!("\r{line:<width$}", width = self.width);
        self.width = line.len();
        self.next = Instant::now() + PATIENCE / 3;
    }
}

/// Nothing of the line stays, however the work ends.
impl Drop for Progress {
    fn drop(&mut self) {
        if self.width > 0 {
            eprint!("\r{:width$}\r", "", width = self.width);
        }
    }
}
