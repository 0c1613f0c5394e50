//! How far a long comparison has come, on standard error: one line that is written over on a
//! terminal, else a line now and then.

use std::time::{Duration, Instant};

pub struct Progress {
    total: u64,
    done: u64,
    begun: Instant,
    shown: Instant,
    terminal: bool,
}

impl Progress {
    /// Of so many cases in all.
    pub fn new(total: u64) -> Progress {
        let now = Instant::now();
        Progress { total, done: 0, begun: now, shown: now, terminal: on_terminal() }
    }

    /// Cases that are not to be run after all.
    pub fn skip(&mut self, cases: u64) {
        self.total -= cases;
    }

    pub fn seconds(&self) -> u64 {
        self.begun.elapsed().as_secs()
    }

    /// One case more is done; `what` says which call is at work.
    pub fn step(&mut self, what: impl Fn() -> String) {
        self.done += 1;
        let pause = Duration::from_secs(if self.terminal { 1 } else { 5 });
        // The clock is read now and then only: a small case takes less than a microsecond.
        if self.done % 64 != 0 || self.shown.elapsed() < pause {
            return;
        }
        self.shown = Instant::now();
        let (begin, end) = if self.terminal { ("\r\x1b[K", "") } else { ("", "\n") };
        let percent = 100 * self.done / self.total.max(1);
        eprint!("{begin}{percent} % of all cases, {} s; {}{end}", self.seconds(), what());
    }

    /// Clears the line before something else is printed.
    pub fn wipe(&self) {
        if self.terminal {
            eprint!("\r\x1b[K");
        }
    }
}

/// Whether standard error is a terminal, as C tells it.
pub fn on_terminal() -> bool {
    extern "C" {
        fn isatty(file: i32) -> i32;
    }
    unsafe { isatty(2) == 1 }
}
