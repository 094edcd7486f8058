//! Progress on the terminal.

use std::io::{stderr, IsTerminal, Write};
use std::time::{Duration, Instant};

pub struct Progress {
    what: String,
    total: u64,
    start: Instant,
    shown: Instant,
}

impl Progress {
    pub fn new(what: &str, total: u64) -> Progress {
        Progress { what: what.into(), total, start: Instant::now(), shown: Instant::now() }
    }

    /// Shows how many are done, a few times a second.
    pub fn at(&mut self, done: u64) {
        if stderr().is_terminal() && self.shown.elapsed() > Duration::from_millis(200) {
            self.shown = Instant::now();
            let share = 100 * done / self.total.max(1);
            eprint!("\r{}: {done} of {} ({share} %)  ", self.what, self.total);
            let _ = stderr().flush();
        }
    }

    /// The last line.
    pub fn done(self, count: u64) {
        let seconds = self.start.elapsed().as_secs_f64();
        let clear = if stderr().is_terminal() { "\r\x1b[K" } else { "" };
        eprintln!("{clear}{}: {count} in {seconds:.1} s", self.what);
    }
}
