//! A line on standard error that says how far a long run has come, if that is a terminal.

use std::io::{stderr, IsTerminal, Write};
use std::time::{Duration, Instant};

/// When to look at the time again: it isn't asked for in every cycle.
const CYCLES: u32 = 1 << 12;
const PAUSE: Duration = Duration::from_millis(500);
/// A run is long from here on.
const LONG: Duration = Duration::from_secs(2);

pub struct Progress {
    shown: bool,
    due: Option<Instant>,
    cycles: u32,
}

impl Progress {
    /// Exits on a terminal are progress enough.
    pub fn new(exits: bool) -> Progress {
        let wanted = stderr().is_terminal() && !(exits && std::io::stdout().is_terminal());
        Progress { shown: false, due: wanted.then(|| Instant::now() + LONG), cycles: 0 }
    }

    /// After each cycle, or so many in one call.
    pub fn cycles(&mut self, cycles: u32, clock: u32, offered: u64, left: u64) {
        self.cycles = self.cycles.saturating_add(cycles);
        if self.cycles < CYCLES {
            return;
        }
        self.cycles = 0;
        if self.due.is_some_and(|due| Instant::now() >= due) {
            self.due = Some(Instant::now() + PAUSE);
            self.shown = true;
            eprint!("\rcycle {clock}: {offered} offered, {left} left");
            let _ = stderr().flush();
        }
    }

    /// Takes the line away.
    pub fn end(&mut self) {
        if self.shown {
            eprint!("\r\x1b[K");
        }
        self.shown = false;
        self.due = None;
    }
}
