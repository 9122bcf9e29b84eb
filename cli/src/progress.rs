//! The progress bar of long work, on standard error where that is a terminal, and nowhere else.
use std::io::{self, IsTerminal};
use std::time::Duration;

use indicatif::{ProgressBar, ProgressStyle};

use crate::failure::Failure;

pub struct Progress {
    bar: ProgressBar,
}

impl Progress {
    /// Over so many bytes, where that is known.
    pub fn over(length: Option<u64>) -> Self {
        let (bar, shown) = match length {
            Some(bytes) => (
                ProgressBar::new(bytes),
                "{bar:40} {bytes} of {total_bytes}, {bytes_per_sec}, {eta} to go",
            ),
            None => (
                ProgressBar::new_spinner(),
                "{spinner} {bytes}, {bytes_per_sec}",
            ),
        };
        if let Ok(style) = ProgressStyle::with_template(shown) {
            bar.set_style(style);
        }
        Progress { bar }
    }

    /// Over work that does not say how far it is.
    pub fn turning(words: &'static str) -> Self {
        let bar = ProgressBar::new_spinner().with_message(words);
        if let Ok(style) = ProgressStyle::with_template("{spinner} {msg}, {elapsed}") {
            bar.set_style(style);
        }
        bar.enable_steady_tick(Duration::from_millis(100));
        Progress { bar }
    }

    pub fn passed(&self, bytes: usize) {
        self.bar.inc(bytes as u64);
    }

    /// A line on standard error, above the bar.
    pub fn say(&self, line: impl std::fmt::Display) {
        self.bar.suspend(|| crate::say(line));
    }

    /// A line on standard output; where that is the terminal too, above the bar.
    pub fn tell(&self, line: impl std::fmt::Display) -> Result<(), Failure> {
        if io::stdout().is_terminal() {
            return self.bar.suspend(|| crate::tell(line));
        }
        crate::tell(line)
    }
}

impl Drop for Progress {
    fn drop(&mut self) {
        self.bar.finish_and_clear();
    }
}
