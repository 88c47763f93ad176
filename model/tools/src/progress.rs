//! How far a long command is: a line on standard error every few seconds, so that standard output has
//! the findings alone.

use std::time::{Duration, Instant};

/// The least time between two lines.
const BETWEEN: Duration = Duration::from_secs(3);

/// Something that takes long, and how much of it there is.
pub struct Progress {
    what: String,
    all: u64,
    start: Instant,
    said: Instant,
}

impl Progress {
    /// Begins now. `what` says what is counted, as `two-runs: pairs`.
    pub fn new(what: impl Into<String>, all: u64) -> Progress {
        let now = Instant::now();
        Progress {
            what: what.into(),
            all,
            start: now,
            said: now,
        }
    }

    /// So much is done: says so, unless the last line is too young.
    pub fn at(&mut self, done: u64) {
        if self.said.elapsed() >= BETWEEN {
            self.said = Instant::now();
            let seconds = self.start.elapsed().as_secs();
            eprintln!("{} {done} of {}, {seconds} s", self.what, self.all);
        }
    }
}
