//! How far long work is: a line on standard error, after a second, only where a person looks at it.
use std::io::{stderr, IsTerminal, Write};
use std::time::{Duration, Instant};

const FIRST: Duration = Duration::from_secs(1);
const AGAIN: Duration = Duration::from_millis(200);

pub struct Progress {
    next: Option<Instant>,
    shown: bool,
}

impl Progress {
    pub fn new() -> Progress {
        let next = stderr().is_terminal().then(|| Instant::now() + FIRST);
        Progress { next, shown: false }
    }

    /// Shows `done` of `all`, if it is time to; what cannot be shown is left out.
    pub fn show(&mut self, unit: &str, done: u64, all: u64) {
        let now = Instant::now();
        if self.next.is_some_and(|next| now >= next) {
            let _ = write!(stderr(), "\r{done} of {all} {unit} ");
            self.next = Some(now + AGAIN);
            self.shown = true;
        }
    }
}

impl Drop for Progress {
    /// Clears the line.
    fn drop(&mut self) {
        if self.shown {
            let _ = write!(stderr(), "\r\x1b[K");
        }
    }
}
