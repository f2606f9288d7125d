//! A side fed with a list of events: the answer of each, and what every slot then needs.
//!
//! Document 01 has rules for a list that are not the dock's: a request is carried out once, and told with the code of its
//! carry. An event that breaks one of them is none, and is answered as `replay` answers it.

use crate::event::{row_opening, Event};
use crate::side::{Act, Begun, Due, Shown, Side, SLOTS};

#[derive(Clone, Debug, PartialEq, Eq)]
pub enum Answer {
    Done,
    Slot(usize),
    Refused(u8),
    /// The final answer of a job.
    Code(u8),
    Due(Due),
    /// Of a combined call.
    Shown(Shown),
    Bytes(Vec<u8>),
    CarriedAlready,
    NoRequest,
    NotItsCode,
}

/// What became of the request in a slot.
#[derive(Clone, Copy, Debug, PartialEq, Eq)]
enum Mark {
    New,
    Shown,
    Carried(u8),
}

/// What the job in a slot needs, and whether a request was due before.
#[derive(Clone, Debug, PartialEq, Eq)]
pub struct View {
    pub slot: usize,
    pub shown_before: bool,
    pub due: Due,
}

/// What an event answers, and the slots that have a job after it.
#[derive(Clone, Debug, PartialEq, Eq)]
pub struct Observed {
    pub answer: Answer,
    pub views: Vec<View>,
}

pub struct Session<S> {
    pub side: S,
    marks: [Mark; SLOTS],
}

/// A combined event and its answer as the separate events that it stands for, with theirs; another event as it is.
pub fn separately(event: &Event, answer: &Answer) -> Vec<(Event, Answer)> {
    let tell = |slot: &u64, code: &u8| Event::Tell { slot: *slot, code: *code };
    let collected = |slot: &u64, code: &u8| (Event::Collect(*slot), Answer::Code(*code));
    match (event, answer) {
        (Event::Submit(begin), Answer::Shown(shown)) => vec![(Event::Begin(begin.clone()), begun(shown))],
        (Event::Complete { slot, code }, Answer::Shown(Shown::Refused(number))) => {
            vec![(tell(slot, code), Answer::Refused(*number))]
        }
        (Event::Complete { slot, code }, Answer::Shown(Shown::Answer(last))) => {
            vec![(tell(slot, code), Answer::Done), collected(slot, last)]
        }
        (Event::Complete { slot, code }, Answer::Shown(_)) => vec![(tell(slot, code), Answer::Done)],
        (Event::Complete { slot, code }, other) => vec![(tell(slot, code), other.clone())],
        (Event::ShowSlot(slot), Answer::Shown(Shown::Answer(last))) => vec![collected(slot, last)],
        (Event::ShowSlot(slot), Answer::Shown(shown)) => vec![(Event::Next(*slot), Answer::Due(due(shown)))],
        _ => vec![(event.clone(), answer.clone())],
    }
}

/// What the begin of a submit answered.
fn begun(shown: &Shown) -> Answer {
    match shown {
        Shown::Refused(refusal) => Answer::Refused(*refusal),
        Shown::Answer(0) => Answer::Done,
        Shown::Answer(code) => Answer::Code(*code),
        Shown::Waiting(slot) | Shown::Make(slot, _) => Answer::Slot(*slot),
    }
}

/// What next says where this is shown.
pub fn due(shown: &Shown) -> Due {
    match shown {
        Shown::Refused(refusal) => Due::Refused(*refusal),
        Shown::Answer(code) => Due::Answer(*code),
        Shown::Waiting(_) => Due::Waiting,
        Shown::Make(_, request) => Due::Make(request.clone()),
    }
}

fn outcome(number: u8) -> Answer {
    match number {
        0 => Answer::Done,
        refusal => Answer::Refused(refusal),
    }
}

/// The bytes of a buffer that lie in the range become `byte`.
fn fill(bytes: &mut [u8], offset: u64, length: u64, byte: u8) {
    let end = offset.saturating_add(length).min(bytes.len() as u64);
    if offset < end {
        bytes[offset as usize..end as usize].fill(byte);
    }
}

impl<S: Side> Session<S> {
    pub fn new(side: S) -> Self {
        Session { side, marks: [Mark::New; SLOTS] }
    }

    fn mark(&self, slot: usize) -> Mark {
        self.marks.get(slot).copied().unwrap_or(Mark::New)
    }

    /// The code that the request in `slot` was carried out with.
    pub fn carried(&self, slot: usize) -> Option<u8> {
        match self.mark(slot) {
            Mark::Carried(code) => Some(code),
            _ => None,
        }
    }

    pub fn perform(&mut self, event: &Event) -> Observed {
        let answer = self.answer(event);
        Observed { answer, views: self.views() }
    }

    fn answer(&mut self, event: &Event) -> Answer {
        match event {
            Event::OpenRow { row, bounce } => self.open(&Event::Open(row_opening(*row, *bounce))),
            Event::Open(_) => self.open(event),
            Event::Store { offset, length, byte } => {
                self.side.store_mut().fill(*offset, *length, *byte);
                Answer::Done
            }
            Event::Data { offset, length, byte } => {
                fill(self.side.data_mut(), *offset, *length, *byte);
                Answer::Done
            }
            Event::Begin(begin) => match self.side.begin(begin) {
                Begun::Done => Answer::Done,
                Begun::Slot(slot) => Answer::Slot(slot),
                Begun::Refused(refusal) => Answer::Refused(refusal),
            },
            Event::Next(slot) => Answer::Due(self.side.next(*slot as usize)),
            Event::Carry { slot, act } => self.carry(*slot as usize, *act),
            Event::Tell { slot, code } => self.tell(*slot as usize, *code),
            Event::Collect(slot) => self.side.collect(*slot as usize).map_or_else(Answer::Refused, Answer::Code),
            Event::Submit(begin) => Answer::Shown(self.side.submit(begin)),
            Event::Complete { slot, code } => self.complete(*slot as usize, *code),
            Event::ShowSlot(slot) => Answer::Shown(self.side.show(*slot as usize)),
            Event::Show { offset, length } => Answer::Bytes(self.shown(*offset, *length)),
        }
    }

    fn open(&mut self, event: &Event) -> Answer {
        let Event::Open(opening) = event else { unreachable!("called for openings only") };
        self.marks = [Mark::New; SLOTS];
        outcome(self.side.open(opening))
    }

    fn is_out(&self, slot: usize) -> bool {
        matches!(self.side.next(slot), Due::Make(_))
    }

    fn carry(&mut self, slot: usize, act: Act) -> Answer {
        if self.carried(slot).is_some() {
            return Answer::CarriedAlready;
        }
        if !self.is_out(slot) {
            return Answer::NoRequest;
        }
        self.side.carry(slot, act);
        self.marks[slot] = Mark::Carried(act.code);
        Answer::Done
    }

    /// Whether a request is out that was carried out with another code. A code that is no answer, or one to a slot without a request, is
    /// refused by the dock itself.
    fn has_other_code(&self, slot: usize, code: u8) -> bool {
        let asked = code < crate::document::FIRST_NO_ANSWER && self.is_out(slot);
        asked && self.carried(slot) != Some(code)
    }

    fn complete(&mut self, slot: usize, code: u8) -> Answer {
        if self.has_other_code(slot, code) {
            return Answer::NotItsCode;
        }
        let shown = self.side.complete(slot, code);
        if !matches!(shown, Shown::Refused(_)) {
            self.marks[slot] = Mark::New;
        }
        Answer::Shown(shown)
    }

    fn tell(&mut self, slot: usize, code: u8) -> Answer {
        if self.has_other_code(slot, code) {
            return Answer::NotItsCode;
        }
        let told = self.side.tell(slot, code);
        if told == 0 {
            self.marks[slot] = Mark::New;
        }
        outcome(told)
    }

    fn shown(&self, offset: u64, length: u64) -> Vec<u8> {
        let low = self.side.store().low();
        let end = offset.saturating_add(length).min(low.len() as u64);
        if offset < end {
            low[offset as usize..end as usize].to_vec()
        } else {
            Vec::new()
        }
    }

    fn views(&mut self) -> Vec<View> {
        let mut views = Vec::with_capacity(SLOTS);
        for slot in 0..SLOTS {
            let due = self.side.next(slot);
            if matches!(due, Due::Refused(_)) {
                continue;
            }
            let shown_before = self.marks[slot] != Mark::New;
            if matches!(due, Due::Make(_)) && !shown_before {
                self.marks[slot] = Mark::Shown;
            }
            views.push(View { slot, shown_before, due });
        }
        views
    }
}
