//! A line on a terminal that says how far a long run is.

use std::io::{self, IsTerminal, Write};
use std::time::{Duration, Instant};

/// How long a run is quiet, and how long a line stays.
const QUIET: Duration = Duration::from_secs(1);
const STAYS: Duration = Duration::from_millis(100);

/// Goes to the start of the line and clears it.
const CLEAR: &str = "\r\x1B[K";

pub struct Progress {
    is_terminal: bool,
    began: Instant,
    told: Option<Instant>,
    stands: bool,
}

impl Progress {
    pub fn new() -> Progress {
        let is_terminal = io::stderr().is_terminal();
        Progress { is_terminal, began: Instant::now(), told: None, stands: false }
    }

    /// Says that so many of all are done.
    pub fn tell(&mut self, done: usize, all: usize) {
        if let Some(line) = self.line(Instant::now(), done, all) {
            let _ = write!(io::stderr().lock(), "{line}");
        }
    }

    /// The line at a moment, where one is due.
    fn line(&mut self, now: Instant, done: usize, all: usize) -> Option<String> {
        let is_due = match self.told {
            Some(told) => now.duration_since(told) >= STAYS,
            None => now.duration_since(self.began) >= QUIET,
        };
        if !self.is_terminal || !is_due {
            return None;
        }
        (self.told, self.stands) = (Some(now), true);
        Some(format!("{CLEAR}{done} of {all} folders"))
    }

    /// Clears the line where it stands, before anything else is written to the terminal.
    pub fn clear(&mut self) {
        if std::mem::take(&mut self.stands) {
            let _ = write!(io::stderr().lock(), "{CLEAR}");
        }
    }
}

#[cfg(test)]
mod tests {
    use super::*;

    #[test]
    fn when_it_is_told() {
        let began = Instant::now();
        let after = |millis| began + Duration::from_millis(millis);
        let mut terminal = Progress { is_terminal: true, began, told: None, stands: false };
        assert_eq!(terminal.line(after(999), 5, 200), None);
        let first = terminal.line(after(1_000), 6, 200);
        assert_eq!(first.as_deref(), Some("\r\x1B[K6 of 200 folders"));
        assert!(terminal.stands);
        assert_eq!(terminal.line(after(1_099), 7, 200), None);
        assert!(terminal.line(after(1_100), 8, 200).is_some());
        let mut file = Progress { is_terminal: false, began, told: None, stands: false };
        assert_eq!(file.line(after(5_000), 9, 200), None);
        assert!(!file.stands);
    }
}
