//! What a list reaches, counted under a name each: refusals, requests, fallbacks, waiting, joining.

use crate::document::{self, Course};
use crate::document_side::DocumentSide;
use crate::event::Event;
use crate::lists::World;
use crate::session::{Answer, Observed, Session};
use crate::side::{Begin, Blockers, Due, Job, Kind, Piece, Request, Segment, Side, SLOTS};
use std::collections::BTreeMap;

#[derive(Clone, Default)]
pub struct Coverage {
    pub counts: BTreeMap<String, u64>,
}

fn call(event: &Event) -> &'static str {
    match event {
        Event::OpenRow { .. } | Event::Open(_) => "open",
        Event::Begin(b) => match b.job {
            Job::Read => "read",
            Job::Write => "write",
            Job::Zeroes => "zero",
            Job::AllocatedZeroes => "alloc",
            Job::Discard => "discard",
        },
        Event::Next(_) => "next",
        Event::Carry { .. } => "carry",
        Event::Tell { .. } => "tell",
        Event::Collect(_) => "collect",
        Event::Submit(_) => "submit",
        Event::Complete { .. } => "complete",
        Event::ShowSlot(_) => "show",
        Event::Store { .. } | Event::Data { .. } | Event::Show { .. } => "other",
    }
}

fn request_name(r: &Request) -> String {
    let lies = match (r.pieces.first(), r.pieces.len()) {
        (Some(Piece::Data(_)), 1) => ", data",
        (Some(Piece::Data(_)), _) => ", several segments of data",
        (Some(Piece::Scratch(_)), _) => ", scratch",
        (None, _) => "",
    };
    format!("request {:?}{lies}", r.kind)
}

/// Which reads a padded write makes first.
fn reads_name(course: &Course) -> Option<&'static str> {
    let stage = course.stage();
    if stage.kind != Kind::Write || !stage.padded {
        return None;
    }
    Some(match &stage.reads[..] {
        [] => "padded write reads nothing",
        [one] if *one == stage.request => "padded write reads all",
        [one] if one.start == stage.request.start => "padded write reads its head",
        [_] => "padded write reads its tail",
        [head, tail] if head == tail => "padded write reads one block twice",
        _ => "padded write reads head and tail",
    })
}

/// Whether an empty segment starts where the one before it ends.
fn has_empty_touching(v: &[Segment]) -> bool {
    v.windows(2).any(|two| two[1].length == 0 && two[0].start.checked_add(two[0].length) == Some(two[1].start))
}

fn code_name(code: u8) -> &'static str {
    match code {
        0 => "done",
        1 => "unsupported",
        2..=199 => "failed",
        _ => "no answer",
    }
}

impl Coverage {
    /// What a list reaches, by document 01's rules.
    pub fn of(events: &[Event], world: World) -> Self {
        let mut coverage = Coverage::default();
        let mut session = Session::new(DocumentSide::new(&world.content()));
        events.iter().for_each(|event| coverage.take(event, &mut session, world));
        coverage
    }

    /// An event; a combined one as the separate ones that it stands for, and by its own name.
    fn take(&mut self, event: &Event, session: &mut Session<DocumentSide>, world: World) {
        let ended = |session: &Session<DocumentSide>, slot: u64| {
            matches!(session.side.next(slot as usize), Due::Answer(_)).then_some(Event::Collect(slot))
        };
        match event {
            Event::Submit(begin) => {
                self.separate(&Event::Begin(begin.clone()), session, world);
            }
            Event::Complete { slot, code } => {
                let told = self.separate(&Event::Tell { slot: *slot, code: *code }, session, world);
                let collect = ended(session, *slot).filter(|_| told == Answer::Done);
                collect.iter().for_each(|collect| _ = self.separate(collect, session, world));
            }
            Event::ShowSlot(slot) => {
                let event = ended(session, *slot).unwrap_or(Event::Next(*slot));
                self.separate(&event, session, world);
            }
            _ => _ = self.separate(event, session, world),
        }
        if let Event::Submit(_) | Event::Complete { .. } | Event::ShowSlot(_) = event {
            self.add(format!("combined call {}", call(event)));
        }
    }

    fn separate(&mut self, event: &Event, session: &mut Session<DocumentSide>, world: World) -> Answer {
        let before = session.side.requests();
        let performed = world.performed(event);
        let seen = session.perform(&performed);
        self.event(&performed, &seen, &before, &session.side);
        if let (Event::Begin(written), Event::Begin(taken)) = (event, &performed) {
            self.joining(written, taken, &seen.answer, &session.side);
        }
        seen.answer
    }

    fn add(&mut self, name: impl Into<String>) {
        *self.counts.entry(name.into()).or_default() += 1;
    }

    pub fn merge(&mut self, other: &Coverage) {
        for (name, n) in &other.counts {
            *self.counts.entry(name.clone()).or_default() += n;
        }
    }

    pub fn show(&self) {
        self.counts.iter().for_each(|(name, n)| println!("{n:8} {name}"));
    }

    fn event(&mut self, event: &Event, seen: &Observed, before: &[Option<Kind>; SLOTS], side: &DocumentSide) {
        match &seen.answer {
            Answer::Refused(number) | Answer::Due(Due::Refused(number)) => {
                self.add(format!("refused {number}"));
                self.add(format!("refused {number} by {}", call(event)));
            }
            Answer::CarriedAlready => self.add("carried out already"),
            Answer::NoRequest => self.add("no request to carry out"),
            Answer::NotItsCode => self.add("not the code of its carry"),
            Answer::Code(207) => self.add("collect of a late 207"),
            Answer::Code(code) => self.add(format!("collect, {}", code_name(*code))),
            _ => {}
        }
        match event {
            Event::Begin(begin) => self.begin(begin, &seen.answer, side),
            Event::Carry { act, .. } if seen.answer == Answer::Done => {
                let choice = if act.choice.is_some() { " with a choice" } else { "" };
                self.add(format!("carry, {}{choice}", code_name(act.code)));
            }
            Event::Tell { slot, code } if seen.answer == Answer::Done => {
                self.tell(*slot as usize, *code, before, side);
            }
            _ => {}
        }
        self.due(seen);
    }

    fn due(&mut self, seen: &Observed) {
        for view in seen.views.iter().filter(|v| !v.shown_before) {
            if let Due::Make(r) = &view.due {
                self.add(request_name(r));
            }
        }
    }

    fn begin(&mut self, begin: &Begin, answer: &Answer, side: &DocumentSide) {
        match answer {
            Answer::Done => self.add(format!("{:?} done at begin", begin.job)),
            Answer::Slot(slot) => self.entered(*slot, side),
            _ => {}
        }
    }

    /// What became of segments that touch: they are joined where a vector is pushed; a begin itself joins none.
    fn joining(&mut self, written: &Begin, taken: &Begin, answer: &Answer, side: &DocumentSide) {
        let (before, after) = (written.segments.len(), taken.segments.len());
        let slot = match answer {
            Answer::Slot(slot) => *slot,
            Answer::Refused(document::SEGMENT) if after > document::MOST_SEGMENTS => {
                return self.add("17 segments refused")
            }
            Answer::Refused(document::SEGMENT) if has_empty_touching(&taken.segments) => {
                return self.add("an empty segment that touches, refused")
            }
            _ => return,
        };
        let course = if side.course(slot).is_some_and(|c| c.stage().bounced) { "padded" } else { "direct" };
        if after < before {
            self.add(format!("joined segments, {course}"));
        }
        if after < before && before > document::MOST_SEGMENTS {
            self.add("17 segments, joined to 16 or fewer");
        }
        if document::pushed(&taken.segments).len() < after {
            self.add(format!("segments that touch, {course}"));
        }
    }

    /// A stage was entered: what it reads first, and whom it waits for.
    fn entered(&mut self, slot: usize, side: &DocumentSide) {
        if let Some(name) = side.course(slot).and_then(reads_name) {
            self.add(name);
        }
        let strength = |strong: bool| if strong { "strong" } else { "weak" };
        let own = strength(side.blockers().is_strong(slot));
        let noted: Vec<(usize, bool)> = side.blockers().noted(slot).collect();
        for (other, strong) in &noted {
            let waits = if side.blockers().waits(*other) { " that waits" } else { "" };
            self.add(format!("{own} waits for {}{waits}", strength(*strong)));
        }
        if noted.len() > 1 {
            self.add(format!("{own} waits for several"));
        }
        let filled = side.course(slot).is_some_and(|c| c.stage().bounced && c.reads_are_done());
        if filled && !noted.is_empty() {
            self.add("a write that reads nothing waits with its bytes in scratch");
        }
    }

    fn tell(&mut self, slot: usize, code: u8, before: &[Option<Kind>; SLOTS], side: &DocumentSide) {
        let Some(kind) = before[slot] else { return };
        self.add(format!("told {kind:?} {}", code_name(code)));
        let course = side.course(slot).expect("a tell leaves the job in its slot");
        match (kind, code, course.answer()) {
            (Kind::Zero | Kind::AllocatedZero, 1, Some(207)) => self.add("late 207 at the first chunk"),
            (_, _, Some(207)) => self.add("late 207 at a later stage"),
            (Kind::Zero | Kind::AllocatedZero, 1, _) => self.add("fallback to writes of zeroes"),
            (Kind::Discard, 1, _) => self.add("fallback of a discard"),
            (Kind::Zero | Kind::AllocatedZero, 0, None) => self.add("head or tail after a zero request"),
            _ => {}
        }
        if matches!(kind, Kind::Write | Kind::Zero | Kind::AllocatedZero) && course.answer().is_none() {
            self.add(if side.blockers().waits(slot) { "a later stage waits" } else { "a later stage is due" });
            self.entered(slot, side);
        }
        let after = side.requests();
        match (0..SLOTS).filter(|s| *s != slot && before[*s].is_none() && after[*s].is_some()).count() {
            0 => {}
            1 => self.add("a tell releases one"),
            _ => self.add("a tell releases several"),
        }
    }
}

impl DocumentSide {
    /// The kind of the request that is out in each slot.
    fn requests(&self) -> [Option<Kind>; SLOTS] {
        std::array::from_fn(|slot| match self.next(slot) {
            Due::Make(r) => Some(r.kind),
            _ => None,
        })
    }
}
