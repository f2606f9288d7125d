//! The jobs in flight, as the answers of a list tell them.

use crate::document;
use crate::event::{row_opening, Event};
use crate::imago_side::CLOSED;
use crate::session::{separately, Answer};
use crate::side::{Begin, Opening, Segment, SLOTS};

pub struct Flight {
    pub opening: Opening,
    pub jobs: [Option<Begin>; SLOTS],
}

impl Default for Flight {
    fn default() -> Self {
        Flight { opening: CLOSED, jobs: Default::default() }
    }
}

impl Flight {
    pub fn note(&mut self, event: &Event, answer: &Answer) {
        separately(event, answer).iter().for_each(|(event, answer)| self.note_separate(event, answer));
    }

    fn note_separate(&mut self, event: &Event, answer: &Answer) {
        match (event, answer) {
            (Event::OpenRow { row, bounce }, _) => {
                *self = Flight { opening: row_opening(*row, *bounce), jobs: Default::default() }
            }
            (Event::Open(opening), _) => *self = Flight { opening: *opening, jobs: Default::default() },
            (Event::Begin(begin), Answer::Slot(slot)) => self.jobs[*slot] = Some(begin.clone()),
            (Event::Collect(slot), Answer::Code(_)) => self.jobs[*slot as usize] = None,
            _ => {}
        }
    }

    pub fn is_empty(&self) -> bool {
        self.jobs.iter().all(Option::is_none)
    }

    pub fn job(&self, slot: u64) -> Option<&Begin> {
        self.jobs.get(slot as usize)?.as_ref()
    }

    /// Whether a run of data belongs to a job in flight.
    pub fn uses(&self, run: &Segment) -> bool {
        let mut segments = self.jobs.iter().flatten().flat_map(|j| &j.segments);
        segments.any(|s| document::overlap(s, run))
    }
}
