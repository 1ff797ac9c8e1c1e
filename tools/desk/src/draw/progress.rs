//! How far the work is, for someone who waits at a terminal.
use std::io::{IsTerminal, Write, stderr};
use std::time::{Duration, Instant};

/// Nothing is said before this, nor more often.
const PATIENCE: Duration = Duration::from_millis(400);

pub struct Progress {
    shown: bool,
    next: Option<Instant>,
}

impl Progress {
    pub fn new() -> Self {
        Self { shown: false, next: stderr().is_terminal().then(|| Instant::now() + PATIENCE) }
    }

    pub fn silent() -> Self {
        Self { shown: false, next: None }
    }

    /// The part of the work that is done.
    pub fn at(&mut self, part: f64) {
        let Some(next) = self.next else { return };
        if Instant::now() < next {
            return;
        }
        self.shown = true;
        self.next = Some(Instant::now() + PATIENCE);
        let _ = write!(stderr(), "\rdesk draw: {:3.0} %", part * 100.0);
    }
}

impl Drop for Progress {
    fn drop(&mut self) {
        if self.shown {
            let _ = write!(stderr(), "\r\x1b[K");
        }
    }
}
