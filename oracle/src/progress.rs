//! A line every few seconds on how far a run is.

use std::time::{Duration, Instant};

pub struct Progress {
    start: Instant,
    shown: Instant,
    lists: u64,
    events: u64,
    differences: u64,
}

const EVERY: Duration = Duration::from_secs(5);

impl Default for Progress {
    fn default() -> Self {
        let now = Instant::now();
        Progress { start: now, shown: now, lists: 0, events: 0, differences: 0 }
    }
}

impl Progress {
    pub fn list(&mut self, events: usize) {
        self.lists += 1;
        self.events += events as u64;
        if self.shown.elapsed() >= EVERY {
            self.shown = Instant::now();
            self.show();
        }
    }

    pub fn difference(&mut self) {
        self.differences += 1;
    }

    pub fn differences(&self) -> u64 {
        self.differences
    }

    pub fn show(&self) {
        let seconds = self.start.elapsed().as_secs_f64();
        let speed = self.lists as f64 / seconds.max(0.001);
        println!(
            "{} lists, {} events, {} differences, {seconds:.0} s, {speed:.0} lists/s",
            self.lists, self.events, self.differences
        );
    }
}
