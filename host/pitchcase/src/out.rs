//! Standard output and standard error. A write to standard output that fails is kept, and ends the run.

use crate::system;
use crate::trouble::{failed, reason, Outcome};
use std::fs::File;
use std::io::{self, BufWriter, IsTerminal, Write};

/// Results go here.
pub struct Out {
    writer: BufWriter<&'static File>,
    is_terminal: bool,
    broken: Option<io::Error>,
}

impl Out {
    /// Standard output.
    pub fn new() -> Out {
        let file = system::standing(1);
        Out { writer: BufWriter::with_capacity(1 << 16, file), is_terminal: file.is_terminal(), broken: None }
    }

    /// Whether someone reads along.
    pub fn is_terminal(&self) -> bool {
        self.is_terminal
    }

    /// Whether a write has failed.
    pub fn is_broken(&self) -> bool {
        self.broken.is_some()
    }

    /// Writes bytes, some time before the next flush.
    pub fn put(&mut self, bytes: &[u8]) {
        if self.broken.is_none() {
            self.broken = self.writer.write_all(bytes).err();
        }
    }

    /// Writes a line; at once where someone reads along.
    pub fn line(&mut self, text: &str) {
        self.put(text.as_bytes());
        self.put(b"\n");
        if self.is_terminal {
            self.flush();
        }
    }

    /// All that was put is written now.
    pub fn flush(&mut self) {
        if self.broken.is_none() {
            self.broken = self.writer.flush().err();
        }
    }

    /// All that was put is written now, or that is the run's failure; `after` says what was done before it.
    pub fn settle(&mut self, after: &str) -> Outcome<()> {
        self.flush();
        match &self.broken {
            None => Ok(()),
            Some(error) => failed(format!("standard output: {}; {after}", reason(error))),
        }
    }
}

/// Says a line on standard error. Where that cannot be written nobody is left to tell.
pub fn say(text: &str) {
    let _ = system::standing(2).write_all(format!("pitchcase: {text}\n").as_bytes());
}
