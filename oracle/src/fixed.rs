//! The fixed list: a script and imago's trace of it, which `replay` can repeat without Rust.
//!
//! First come document 01's traced jobs and a few lists that lead to what is rare; then random lists, chosen one by one because
//! they reach what no list before did, or reached seldom; then random lists as long as the script has room.

use crate::coverage::Coverage;
use crate::event::Event;
use crate::lists::{random_list, SCRIPTS};
use crate::replay::{imago_trace, script, LONGEST_SCRIPT};
use crate::script::parse;

pub struct Fixed {
    pub script: String,
    pub trace: String,
    pub lists: usize,
    pub events: usize,
    pub coverage: Coverage,
}

/// The first line of script and trace.
const HEADER: &str = "# Made by `oracle fixed`; the trace is that of imago's side.\n";

/// How many random lists are looked at.
const CANDIDATES: u64 = 4000;

/// A name that is reached this often is reached enough.
const ENOUGH: u64 = 3;

/// Room for a comment before each list.
const COMMENT: usize = 24;

/// Document 01's traced jobs, and lists that lead where random ones seldom go.
const DIRECTED: &str = include_str!("directed.txt");

/// The events of a line of `DIRECTED`.
fn directed_events(line: &str) -> Vec<Event> {
    let lines = match line.strip_prefix("serve ") {
        Some(rest) => vec![format!("carry {rest}"), format!("tell {rest}")],
        None => vec![line.to_owned()],
    };
    lines.iter().map(|l| parse(l).expect("the directed lists have events only")).collect()
}

fn directed_list(text: &str) -> Vec<Event> {
    text.lines().filter(|line| !line.starts_with('#')).flat_map(directed_events).collect()
}

fn bytes(events: &[Event]) -> usize {
    script(events).len() + COMMENT
}

/// How much a list adds to what is reached seldom, for each byte of it.
fn gain(reached: &Coverage, list: &Coverage, bytes: usize) -> u64 {
    let missing = |name: &String| ENOUGH.saturating_sub(reached.counts.get(name).copied().unwrap_or(0));
    let added: u64 = list.counts.iter().map(|(name, n)| missing(name).min(*n) * missing(name)).sum();
    added * 1_000_000 / bytes as u64
}

struct Choice {
    lists: Vec<Vec<Event>>,
    coverage: Coverage,
    bytes: usize,
}

impl Choice {
    fn take(&mut self, events: Vec<Event>, coverage: &Coverage) {
        self.bytes += bytes(&events);
        self.coverage.merge(coverage);
        self.lists.push(events);
    }

    fn has_room(&self, events: &[Event]) -> bool {
        self.bytes + bytes(events) < LONGEST_SCRIPT
    }

    /// Takes the candidates that gain, the best first, then others in order.
    fn choose(&mut self, mut candidates: Vec<(Vec<Event>, Coverage)>) {
        loop {
            let gains = candidates.iter().map(|(events, c)| gain(&self.coverage, c, bytes(events)));
            let best = gains.enumerate().max_by_key(|(i, gain)| (*gain, usize::MAX - i));
            match best {
                Some((i, gain)) if gain > 0 && self.has_room(&candidates[i].0) => {
                    let (events, coverage) = candidates.remove(i);
                    self.take(events, &coverage);
                }
                _ => break,
            }
        }
        for (events, coverage) in candidates {
            if self.has_room(&events) {
                self.take(events, &coverage);
            }
        }
    }
}

/// The fixed list of a seed.
pub fn fixed(seed: u64) -> Fixed {
    let with_coverage = |events: Vec<Event>| {
        let coverage = Coverage::of(&events, SCRIPTS);
        (events, coverage)
    };
    let mut choice = Choice { lists: Vec::new(), coverage: Coverage::default(), bytes: HEADER.len() };
    for text in DIRECTED.split("\n\n") {
        let (events, coverage) = with_coverage(directed_list(text));
        choice.take(events, &coverage);
    }
    choice.choose((0..CANDIDATES).map(|list| with_coverage(random_list(seed, list, SCRIPTS))).collect());
    written(choice)
}

/// Script and trace, with a comment before each list.
fn written(choice: Choice) -> Fixed {
    let traced = imago_trace(&choice.lists.concat(), None);
    assert_eq!(traced.broken, None, "imago's side keeps demand 3");
    let mut lines = traced.lines.iter();
    let (mut text, mut trace) = (HEADER.to_owned(), HEADER.to_owned());
    for (i, events) in choice.lists.iter().enumerate() {
        let comment = format!("# list {}\n", i + 1);
        text += &comment;
        trace += &comment;
        for event in events {
            text += &format!("{event}\n");
            trace += lines.next().expect("the lists go nowhere where imago and document 01 depart");
        }
    }
    trace += "ok\n";
    let events = traced.lines.len();
    Fixed { script: text, trace, lists: choice.lists.len(), events, coverage: choice.coverage }
}
