//! Two sides fed with the same list, compared after every event.

use crate::departures;
use crate::event::Event;
use crate::flight::Flight;
use crate::plain::Plain;
use crate::session::{Observed, Session};
use crate::side::Side;
use crate::store::Content;
use crate::trace;

/// The first difference of a list.
#[derive(Clone, Debug, PartialEq, Eq)]
pub struct Difference {
    /// The event after which it shows.
    pub at: usize,
    pub what: String,
}

struct Pair<A, B> {
    left: Session<A>,
    right: Session<B>,
    plain: Plain,
}

impl<A: Side, B: Side> Pair<A, B> {
    /// What differs after the event: answers, what slots need, bytes; or what breaks demand 3. One plain byte store is enough for
    /// both sides: what it is fed was found to be the same on both.
    fn step(&mut self, event: &Event) -> (Observed, Option<String>) {
        let left = self.left.perform(event);
        let right = self.right.perform(event);
        let broken = answers(&left, &right)
            .or_else(|| self.bytes())
            .or_else(|| self.left.side.fault())
            .or_else(|| self.right.side.fault())
            .or_else(|| named(self.plain.feed(event, &right, &self.right.side)));
        self.settle();
        (left, broken)
    }

    /// The three stores were found the same.
    fn settle(&mut self) {
        self.left.side.store_mut().settle();
        self.right.side.store_mut().settle();
        self.plain.settle();
    }

    fn bytes(&self) -> Option<String> {
        let (left, right) = (&self.left.side, &self.right.side);
        if let Some(at) = left.store().difference(right.store()) {
            return Some(format!("store offset {at}: {} and {}", left.store().byte(at), right.store().byte(at)));
        }
        let (a, b) = (left.data(), right.data());
        if a == b {
            return None;
        }
        let at = a.iter().zip(b).position(|(x, y)| x != y)?;
        Some(format!("data {at}: {} and {}", a[at], b[at]))
    }
}

fn named(what: Option<String>) -> Option<String> {
    what.map(|text| format!("against the plain byte store: {text}"))
}

fn answers(left: &Observed, right: &Observed) -> Option<String> {
    if left.answer != right.answer {
        return Some(format!("answers{} and{}", trace::answer(&left.answer), trace::answer(&right.answer)));
    }
    if left.views == right.views {
        return None;
    }
    let text = |seen: &Observed| seen.views.iter().map(trace::view).collect::<Vec<_>>().join("; ");
    Some(format!("[{}] and [{}]", text(left), text(right)))
}

/// Feeds the list to both sides, which hold `content`, up to the first difference. A list that goes where imago and
/// document 01 depart is compared up to there.
pub fn compare<A: Side, B: Side>(events: &[Event], left: A, right: B, content: &Content) -> Option<Difference> {
    let mut pair = Pair { left: Session::new(left), right: Session::new(right), plain: Plain::new(content) };
    let mut flight = Flight::default();
    for (at, event) in events.iter().enumerate() {
        if !departures::is_comparable(event, &flight) {
            return None;
        }
        let (seen, what) = pair.step(event);
        if let Some(what) = what {
            return Some(Difference { at, what });
        }
        flight.note(event, &seen.answer);
    }
    None
}
