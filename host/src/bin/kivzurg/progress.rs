//! How far a long piece of work is, on a standard error that is a terminal.

use std::io::{self, IsTerminal, Write};
use std::time::{Duration, Instant};

const PAUSE: Duration = Duration::from_millis(500);

pub struct Progress {
    what: &'static str,
    done: u64,
    last: Instant,
    is_seen: bool,
    is_shown: bool,
}

impl Progress {
    /// `is_wanted`: the work may be long, and nobody is at its other end.
    pub fn of(what: &'static str, is_wanted: bool) -> Progress {
        Progress { what, done: 0, last: Instant::now(), is_seen: is_wanted && io::stderr().is_terminal(), is_shown: false }
    }

    pub fn step(&mut self) {
        self.done += 1;
        if self.is_seen && self.last.elapsed() >= PAUSE {
            self.last = Instant::now();
            self.is_shown = true;
            // A line that cannot be shown is not missed.
            drop(write!(io::stderr(), "\r{} {}", self.done, self.what));
        }
    }
}

impl Drop for Progress {
    fn drop(&mut self) {
        if self.is_shown {
            drop(write!(io::stderr(), "\r{} {}\n", self.done, self.what));
        }
    }
}
