//! A line of progress on the terminal, for what takes longer than a second.

use std::io::{self, IsTerminal, Write};
use std::time::{Duration, Instant};

/// The line is shown after this time,
const FIRST: Duration = Duration::from_secs(1);
/// and then not more often than once in this time.
const NEXT: Duration = Duration::from_millis(500);

/// A line of progress on standard error, if that is a terminal.
pub struct Progress {
    terminal: bool,
    /// When the line is to be shown next.
    due: Instant,
    shown: bool,
}

impl Progress {
    pub fn new() -> Progress {
        Progress {
            terminal: io::stderr().is_terminal(),
            due: Instant::now() + FIRST,
            shown: false,
        }
    }

    /// Shows the line if it is time to.
    pub fn show(&mut self, line: impl FnOnce() -> String) {
        if !self.terminal {
            return;
        }
        let now = Instant::now();
        if now < self.due {
            return;
        }
        self.due = now + NEXT;
        self.shown = true;
        write(&format!("\r{}\x1b[K", line()));
    }

    /// Removes the line, so that something else can be written to the terminal.
    pub fn clear(&mut self) {
        if self.shown {
            self.shown = false;
            write("\r\x1b[K");
        }
    }
}

impl Default for Progress {
    fn default() -> Progress {
        Progress::new()
    }
}

impl Drop for Progress {
    fn drop(&mut self) {
        self.clear();
    }
}

/// Writes to standard error. Without a terminal the line is not needed.
fn write(text: &str) {
    let _ = io::stderr().write_all(text.as_bytes());
}

/// How far the work is: words, and the part of all bytes where that is known.
pub fn line(words: u64, read: u64, size: Option<u64>) -> String {
    match size.filter(|&size| size > 0) {
        Some(size) => {
            let percent = u128::from(read) * 100 / u128::from(size);
            format!("zagvirk: {words} words, {} %", percent.min(100))
        }
        None => format!("zagvirk: {words} words"),
    }
}
