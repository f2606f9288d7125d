//! The trace that `replay` prints for a script, written from what a session observed.

use crate::event::Event;
use crate::session::{self, Answer, Observed, View};
use crate::side::{Due, Kind, Piece, Request, Shown, Side};
use std::fmt::Write;

fn kind(kind: Kind) -> &'static str {
    match kind {
        Kind::Read => "read",
        Kind::Write => "write",
        Kind::Zero => "zero",
        Kind::AllocatedZero => "alloc",
        Kind::Discard => "discard",
    }
}

fn direction(kind: Kind) -> &'static str {
    match kind {
        Kind::Read => " into",
        Kind::Write => " from",
        _ => "",
    }
}

/// read 0+512 into scratch 0+512
pub fn request(r: &Request) -> String {
    let mut text = format!("{} {}+{}{}", kind(r.kind), r.offset, r.length, direction(r.kind));
    for piece in &r.pieces {
        let (buffer, s) = match piece {
            Piece::Data(s) => ("data", s),
            Piece::Scratch(s) => ("scratch", s),
        };
        write!(text, " {buffer} {}+{}", s.start, s.length).expect("a String takes any text");
    }
    text
}

pub fn due(d: &Due) -> String {
    match d {
        Due::Waiting => "waiting".to_owned(),
        Due::Make(r) => request(r),
        Due::Answer(code) => format!("answer {code}"),
        Due::Refused(number) => format!("refused {number}"),
    }
}

fn hex(bytes: &[u8]) -> String {
    bytes.iter().map(|b| format!(" {b:02x}")).collect()
}

pub fn answer(a: &Answer) -> String {
    match a {
        Answer::Done => " done".to_owned(),
        Answer::Slot(slot) => format!(" slot {slot}"),
        Answer::Refused(number) => format!(" refused {number}"),
        Answer::Code(code) => format!(" code {code}"),
        Answer::Due(d) => format!(" {}", due(d)),
        Answer::Shown(Shown::Waiting(slot)) => format!(" slot {slot}: waiting"),
        Answer::Shown(Shown::Make(slot, r)) => format!(" slot {slot}: {}", request(r)),
        Answer::Shown(shown) => format!(" {}", due(&session::due(shown))),
        Answer::Bytes(bytes) => hex(bytes),
        Answer::CarriedAlready => " carried out already".to_owned(),
        Answer::NoRequest => " no request is out".to_owned(),
        Answer::NotItsCode => " not the code of its carry".to_owned(),
    }
}

pub fn view(v: &View) -> String {
    let state = match (&v.due, v.shown_before) {
        (Due::Make(_), false) => "due ",
        (Due::Make(_), true) => "out ",
        _ => "",
    };
    format!("slot {}: {state}{}", v.slot, due(&v.due))
}

/// The sum of the bytes, modulo 65,536.
fn sum(bytes: &[u8]) -> u64 {
    bytes.iter().map(|b| *b as u64).sum::<u64>() % 65_536
}

/// The lines of one event.
pub fn event(e: &Event, seen: &Observed, side: &impl Side) -> String {
    let mut text = format!("{e}:{}\n", answer(&seen.answer));
    for v in &seen.views {
        writeln!(text, "  {}", view(v)).expect("a String takes any text");
    }
    let (store, data) = (sum(side.store().low()), sum(side.data()));
    writeln!(text, "  store {store} data {data}").expect("a String takes any text");
    text
}
