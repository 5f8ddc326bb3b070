//! How far long work is, on standard error where that is a terminal.

use std::io::{self, IsTerminal, Write};
use std::time::{Duration, Instant};

/// Work that ends before this says nothing.
const PATIENCE: Duration = Duration::from_millis(400);
/// From one notice to the next.
const PAUSE: Duration = Duration::from_millis(200);
/// The clock is looked at once in so many records.
const STRIDE: usize = 4096;

pub struct Progress {
    shown: bool,
    next: Instant,
    written: bool,
}

impl Progress {
    pub fn new() -> Progress {
        Progress {
            shown: io::stderr().is_terminal(),
            next: Instant::now() + PATIENCE,
            written: false,
        }
    }

    /// Says no more: from here on the output itself shows how far it is.
    pub fn quiet_for_terminal_output(&mut self) {
        if io::stdout().is_terminal() {
            self.clear();
            self.shown = false;
        }
    }

    /// That `what` has come to record `done` of `all`.
    pub fn at(&mut self, what: &str, done: usize, all: usize) {
        if self.shown && done.is_multiple_of(STRIDE) {
            self.tell(&format!("{what}: record {done} of {all}"));
        }
    }

    fn tell(&mut self, notice: &str) {
        let now = Instant::now();
        if now < self.next {
            return;
        }
        self.next = now + PAUSE;
        self.written = true;
        // A terminal that cannot be written to is no reason to stop.
        let _ = write!(io::stderr(), "\r\x1b[Ksteps: {notice}");
        let _ = io::stderr().flush();
    }

    fn clear(&mut self) {
        if self.written {
            let _ = write!(io::stderr(), "\r\x1b[K");
            self.written = false;
        }
    }
}

impl Drop for Progress {
    fn drop(&mut self) {
        self.clear();
    }
}
