//! Progress of long work: a bar where standard error is a terminal, otherwise a line now and then.

use crate::out::say;
use crate::system;
use indicatif::{ProgressBar, ProgressDrawTarget, ProgressStyle};
use std::io::IsTerminal;
use std::time::{Duration, Instant};

/// Work that takes less shows no bar.
const BAR_AFTER: Duration = Duration::from_millis(500);
/// How often a line is written.
const LINE_EVERY: Duration = Duration::from_secs(2);
const STYLE: &str = "{bar:30} {percent}% {bytes} of {total_bytes}, {bytes_per_sec}, {eta} left";

/// How far the work has come.
pub struct Progress {
    total: u64,
    done: u64,
    begun: Instant,
    due: Instant,
    bar: Option<ProgressBar>,
    is_terminal: bool,
    is_shown: bool,
}

impl Progress {
    /// Work of so many bytes begins.
    pub fn new(total: u64, is_shown: bool) -> Progress {
        let is_terminal = system::standing(2).is_terminal();
        let begun = Instant::now();
        let due = begun + if is_terminal { BAR_AFTER } else { LINE_EVERY };
        Progress { total, done: 0, begun, due, bar: None, is_terminal, is_shown }
    }

    /// So many bytes more are done.
    pub fn add(&mut self, bytes: u64) {
        self.done = self.done.saturating_add(bytes).min(self.total);
        if !self.is_shown {
            return;
        }
        let now = Instant::now();
        if now < self.due {
            return;
        }
        if self.is_terminal {
            self.bar.get_or_insert_with(|| bar(self.total)).set_position(self.done);
            return;
        }
        self.due = now + LINE_EVERY;
        say(&line(self.done, self.total, now - self.begun));
    }

    /// Prints something while the bar is out of the way.
    pub fn aside<T>(&mut self, print: impl FnOnce() -> T) -> T {
        match &self.bar {
            Some(bar) => bar.suspend(print),
            None => print(),
        }
    }

    /// The work has ended; the bar goes.
    pub fn end(&mut self) {
        if let Some(bar) = self.bar.take() {
            bar.finish_and_clear();
        }
    }
}

fn bar(total: u64) -> ProgressBar {
    let bar = ProgressBar::with_draw_target(Some(total), ProgressDrawTarget::stderr_with_hz(10));
    bar.set_style(ProgressStyle::with_template(STYLE).unwrap_or_else(|_| ProgressStyle::default_bar()));
    bar
}

/// A line of progress: bytes, percentage and rate.
fn line(done: u64, total: u64, elapsed: Duration) -> String {
    let percent = if total == 0 { 100 } else { u128::from(done) * 100 / u128::from(total) };
    let rate = done as f64 / elapsed.as_secs_f64().max(0.001) / f64::from(1 << 20);
    format!("{done} of {total} bytes ({percent}%), {rate:.1} MiB/s")
}

#[cfg(test)]
mod tests {
    use super::*;

    #[test]
    fn a_line_has_bytes_percentage_and_rate() {
        assert_eq!(line(1 << 20, 4 << 20, Duration::from_secs(2)), "1048576 of 4194304 bytes (25%), 0.5 MiB/s");
        assert_eq!(line(0, 0, Duration::ZERO), "0 of 0 bytes (100%), 0.0 MiB/s");
        assert_eq!(line(u64::MAX, u64::MAX, Duration::from_secs(1)).split(' ').nth(4), Some("(100%),"));
    }

    #[test]
    fn the_bar_has_a_style() {
        assert!(ProgressStyle::with_template(STYLE).is_ok());
    }
}
