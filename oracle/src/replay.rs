//! The program `replay` as the other side: it is given scripts, and its trace is compared with the one that imago's side writes.

use crate::compare::Difference;
use crate::departures;
use crate::event::Event;
use crate::flight::Flight;
use crate::imago_side::ImagoSide;
use crate::lists::SCRIPTS;
use crate::plain::Plain;
use crate::plant::{Fault, Planted};
use crate::session::Session;
use crate::trace;
use std::io::{self, Write};
use std::path::PathBuf;
use std::process::{Command, Stdio};
use std::thread;

/// The most bytes of a script that `replay` takes.
pub const LONGEST_SCRIPT: usize = 65_535;

pub struct Replay {
    pub program: PathBuf,
    /// A fault planted into imago's side.
    pub fault: Option<Fault>,
}

/// A list as a script.
pub fn script(events: &[Event]) -> String {
    events.iter().map(|e| format!("{e}\n")).collect()
}

/// What imago's side writes for a list: for each event its lines, and what breaks demand 3, if anything does.
pub struct ImagoTrace {
    pub lines: Vec<String>,
    pub broken: Option<Difference>,
}

/// imago's trace of a list, up to where imago and document 01 depart. Its lines have the events as they are written;
/// imago is handed vectors as `replay` builds them.
pub fn imago_trace(events: &[Event], fault: Option<Fault>) -> ImagoTrace {
    let content = SCRIPTS.content();
    let side = ImagoSide::new(&content);
    let mut session = Session::new(Planted::new(side, fault));
    let mut plain = Plain::new(&content);
    let mut flight = Flight::default();
    let mut traced = ImagoTrace { lines: Vec::with_capacity(events.len()), broken: None };
    for (at, event) in events.iter().enumerate() {
        let performed = SCRIPTS.performed(event);
        if !departures::is_comparable(&performed, &flight) {
            break;
        }
        let seen = session.perform(&performed);
        if let Some(what) = plain.feed(&performed, &seen, &session.side) {
            traced.broken.get_or_insert(Difference { at, what });
        }
        flight.note(&performed, &seen.answer);
        traced.lines.push(trace::event(event, &seen, &session.side));
    }
    traced
}

impl Replay {
    /// The trace of a script.
    pub fn run(&self, script: String) -> io::Result<String> {
        let mut child = Command::new(&self.program).stdin(Stdio::piped()).stdout(Stdio::piped()).spawn()?;
        let mut stdin = child.stdin.take().expect("stdin is piped");
        let writer = thread::spawn(move || stdin.write_all(script.as_bytes()));
        let output = child.wait_with_output()?;
        writer.join().expect("the writer does not panic")?;
        Ok(String::from_utf8_lossy(&output.stdout).into_owned())
    }

    /// The first event whose lines differ, of a list that is run alone.
    pub fn compare(&self, events: &[Event]) -> io::Result<Option<Difference>> {
        let traced = imago_trace(events, self.fault);
        let text = self.run(script(&events[..traced.lines.len()]))?;
        Ok(first_difference(&traced.lines, &text).or(traced.broken))
    }
}

/// Where a trace of `replay` departs from imago's lines.
pub fn first_difference(lines: &[String], text: &str) -> Option<Difference> {
    let mut rest = text;
    for (at, expected) in lines.iter().enumerate() {
        match rest.strip_prefix(expected.as_str()) {
            Some(after) => rest = after,
            None => {
                let got = &rest[..expected.len().min(rest.len())];
                return Some(Difference { at, what: format!("imago's side\n{expected}replay\n{got}") });
            }
        }
    }
    (rest != "ok\n").then(|| Difference { at: lines.len(), what: format!("replay's last line is {rest:?}") })
}
