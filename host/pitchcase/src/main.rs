//! pitchcase: looks at and edits byte ranges of a drive or its image, in whole aligned blocks.
//!
//! The blocks, who waits for whom, and that no byte outside a range changes, are the proved library's (`pitch_dock`).
//! This program is the thin shell around it: what is typed, the image, the system's calls, what is printed.
//!
//! Exit status: 0 done, 1 failed on the drive or standard output, 2 refused and nothing begun, 130 interrupted.

#![cfg_attr(not(test), no_main)]
#![deny(unsafe_code)]
#![cfg_attr(test, allow(dead_code))]

mod commands;
mod drive;
mod image;
mod input;
mod newfile;
mod numbers;
mod options;
mod out;
mod progress;
mod report;
mod rows;
mod script;
mod sheet;
#[allow(unsafe_code)]
mod system;
mod table;
mod trouble;
mod work;

use options::Said;
use out::{say, Out};
use trouble::{failed, reason, Outcome};

/// Runs what the command line asks; the exit status.
fn start() -> i32 {
    match run() {
        Ok(()) => 0,
        Err(trouble) => {
            say(&trouble.to_string());
            trouble.status()
        }
    }
}

/// Descriptors 0, 1 and 2 come first: an image that got one of their numbers would be written over by what is printed.
fn run() -> Outcome<()> {
    let closed = match system::fill_descriptors() {
        Ok(closed) => closed,
        Err(error) => return failed(format!("/dev/null: {}", reason(&error))),
    };
    system::note_signals();
    if closed[1] {
        return failed("standard output is closed; nothing was begun");
    }
    match options::parse(std::env::args_os())? {
        Said::Command(command) => commands::run(command, closed[0]),
        Said::Text(text) => {
            let mut out = Out::new();
            out.put(text.as_bytes());
            out.settle("nothing was begun")
        }
    }
}
