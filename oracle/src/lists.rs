//! Random lists of events: ranges that collide, offsets near 2^64, codes of every kind, and noise.

use crate::departures;
use crate::document::{self, VectorTest};
use crate::event::{Event, REPLAY_DATA, REPLAY_SEGMENTS, REPLAY_STORE};
use crate::flight::Flight;
use crate::imago_side::ImagoSide;
use crate::random::Random;
use crate::session::{Observed, Session, View};
use crate::side::{Act, Alignments, Begin, Due, Job, Kind, Lent, Opening, Segment, ROWS, SLOTS};
use crate::store::{Content, Store};

/// The buffers and the store that lists are made for.
#[derive(Clone, Copy)]
pub struct World {
    pub data: u64,
    pub low: usize,
    pub high: usize,
    /// Only what a script of `replay` can say: drive rows and its buffers.
    pub scripts: bool,
    /// The share of every opening but those that are to be refused; None picks one.
    pub share: Option<u64>,
}

pub const SCRIPTS: World = World { data: REPLAY_DATA, low: REPLAY_STORE, high: 0, scripts: true, share: None };
pub const MEMORY: World = World { data: 8192, low: 16_384, high: 8192, scripts: false, share: None };

/// Room for vectors of every length that document 01 takes.
const LONG: World = World { data: 1_310_720, low: 1_572_864, high: 1_572_864, scripts: false, share: None };

/// One list in so many is a long one.
const LONG_EVERY: u64 = 128;

/// The worlds of a run.
#[derive(Clone, Copy)]
pub struct Worlds {
    pub usual: World,
    /// That of one list in `LONG_EVERY`.
    pub long: World,
}

impl Worlds {
    /// Lists at one share: long vectors among them, and openings that are refused for their share or their addresses.
    pub fn at(share: u64) -> Self {
        let share = Some(share);
        Worlds { usual: World { share, ..MEMORY }, long: World { share, ..LONG } }
    }

    pub fn is_long(list: u64) -> bool {
        list % LONG_EVERY == LONG_EVERY - 1
    }

    pub fn of(&self, list: u64) -> World {
        if Worlds::is_long(list) {
            self.long
        } else {
            self.usual
        }
    }
}

impl From<World> for Worlds {
    fn from(world: World) -> Self {
        Worlds { usual: world, long: world }
    }
}

impl World {
    fn is_long(&self) -> bool {
        self.data > document::LONGEST_VECTOR
    }

    /// The event as a side performs it. `replay` builds vectors by pushes, which join; elsewhere a begin takes them as
    /// they are.
    pub fn performed(&self, event: &Event) -> Event {
        match event {
            Event::Begin(begin) if self.scripts => Event::Begin(begin.pushed()),
            _ => event.clone(),
        }
    }

    /// What a list starts with: zeroes as in `replay`, otherwise bytes that differ from one offset to the next.
    pub fn content(&self) -> Content {
        let test = if self.scripts { VectorTest::Built } else { VectorTest::Begun };
        let (store, data) = (Store::new(self.low, self.high), vec![0; self.data as usize]);
        let mut content = Content { store, data, test };
        if !self.scripts {
            content.store.each(0, u64::MAX, |o, byte| *byte = mixed(o));
            content.store.settle();
            content.data.iter_mut().enumerate().for_each(|(i, byte)| *byte = mixed(!(i as u64)));
        }
        content
    }
}

/// A byte that says little about its offset.
fn mixed(o: u64) -> u8 {
    (o.wrapping_mul(0x9e37_79b9_7f4a_7c15) >> 56) as u8
}

/// A list while it is made: imago's side runs along, so that events fit what is out.
pub struct Maker {
    random: Random,
    world: World,
    session: Session<ImagoSide>,
    flight: Flight,
    seen: Observed,
    pub events: Vec<Event>,
}

/// A random list.
pub fn random_list(seed: u64, list: u64, world: World) -> Vec<Event> {
    random_list_over(seed, list, world, &world.content())
}

/// The same, over the content of that world.
pub fn random_list_over(seed: u64, list: u64, world: World, content: &Content) -> Vec<Event> {
    let mut maker = Maker::new(Random::new(seed, list), world, content);
    if world.scripts {
        maker.mixed_bytes();
    }
    maker.open();
    maker.fills();
    let events = 10 + maker.random.below(50);
    for _ in 0..events {
        maker.any();
    }
    maker.drain();
    if world.scripts {
        maker.shows();
    }
    maker.events
}

impl Maker {
    pub fn new(random: Random, world: World, content: &Content) -> Self {
        let session = Session::new(ImagoSide::new(content));
        let seen = Observed { answer: crate::session::Answer::Done, views: Vec::new() };
        Maker { random, world, session, flight: Flight::default(), seen, events: Vec::new() }
    }

    /// The event goes into the list, unless imago and document 01 depart there.
    pub fn push(&mut self, event: Event) {
        let performed = self.world.performed(&event);
        if !departures::is_comparable(&performed, &self.flight) {
            return;
        }
        self.seen = self.session.perform(&performed);
        self.flight.note(&performed, &self.seen.answer);
        self.events.push(event);
    }

    fn power(&mut self, most: u64) -> u64 {
        1 << self.random.below(most + 1)
    }

    fn alignments(&mut self) -> Alignments {
        if !self.random.once_in(3) {
            return self.random.pick(&ROWS);
        }
        let most = if self.random.once_in(4) { 16 } else { 12 };
        Alignments::new(self.power(most), self.power(most), self.power(most), self.power(16))
    }

    /// A share that fits: the world's; or the least, a larger one, or imago's.
    fn bounce(&mut self, align: &Alignments) -> u64 {
        if let Some(share) = self.world.share {
            return share;
        }
        let least = (2 * align.zero + 2 * align.length()).div_ceil(align.length()) * align.length();
        let more = least + align.length() * self.random.below(32);
        match self.random.below(8) {
            0 => least,
            1 => document::LONGEST_BOUNCE,
            _ => more.clamp(least, document::LONGEST_BOUNCE),
        }
    }

    fn open(&mut self) {
        if self.world.scripts {
            let row = if self.random.once_in(60) { 6 } else { self.random.below(6) };
            let small = ROWS.get(row as usize).map_or(0, |a| 2 * a.zero + 2 * a.length());
            let bounce = if self.random.once_in(4) { small } else { 16_384 };
            let bounce = if self.random.once_in(60) { self.random.pick(&[0, 1, 16_385, 131_072]) } else { bounce };
            return self.push(Event::OpenRow { row, bounce });
        }
        let mut align = self.alignments();
        let bounce = self.bounce(&align);
        if self.random.once_in(50) {
            align.zero = self.random.pick(&[0, 3, 131_072]);
        }
        let address = self.random.pick(&[0, align.mem, align.mem * 3, 1, 512, 513]);
        let data = Lent { address, length: self.world.data };
        let length = 8 * bounce - u64::from(self.random.once_in(60));
        let scratch = Lent { address: 65_536 * 4, length };
        let mut opening = Opening { align, bounce, data, scratch };
        if self.world.share.is_some() && self.random.once_in(50) {
            self.unusual(&mut opening);
        }
        self.push(Event::Open(opening));
    }

    /// What document 01 refuses, or just takes: other shares, a scratch off M, buffers that end at 2^64 - 1 or past it.
    fn unusual(&mut self, o: &mut Opening) {
        let last = |b: &Lent| u64::MAX - b.length;
        match self.random.below(8) {
            0 => o.bounce += o.align.length(),
            1 => o.bounce -= 1,
            2 => o.bounce = 0,
            3 => o.scratch.address += 1,
            4 => o.data.address = last(&o.data),
            5 => o.data.address = last(&o.data) + 1,
            6 => o.scratch.address = last(&o.scratch) / 65_536 * 65_536,
            _ => o.scratch.address = last(&o.scratch) / 65_536 * 65_536 + 65_536,
        }
    }

    /// A script sets runs of one byte only; by a discard with a choice, and a read, store and data get eight bytes over and over.
    fn mixed_bytes(&mut self) {
        let choice = Some(self.random.word());
        self.push(Event::OpenRow { row: 0, bounce: 4 });
        let all = Segment { start: 0, length: self.world.data };
        for begin in [
            Begin::range(Job::Discard, 0, self.world.low as u64),
            Begin::vector(Job::Read, self.random.below(8), vec![all]),
        ] {
            self.push(Event::Begin(begin));
            self.push(Event::Carry { slot: 0, act: Act { code: 0, choice } });
            self.push(Event::Tell { slot: 0, code: 0 });
            self.push(Event::Collect(0));
        }
    }

    /// The trace of a script has sums only: bytes of the store, and of the data by way of the store, are shown.
    fn shows(&mut self) {
        for _ in 0..3 {
            let offset = self.near(self.world.low as u64).saturating_sub(20);
            self.push(Event::Show { offset, length: 64 });
        }
        self.push(Event::OpenRow { row: 0, bounce: 4 });
        let all = Segment { start: 0, length: self.world.data };
        self.push(Event::Begin(Begin::vector(Job::Write, 0, vec![all])));
        self.push(Event::Carry { slot: 0, act: Act { code: 0, choice: None } });
        for _ in 0..3 {
            let offset = self.random.below(self.world.data);
            self.push(Event::Show { offset, length: 64 });
        }
    }

    /// Runs of one byte in the store and the data, before the first job.
    fn fills(&mut self) {
        for _ in 0..1 + self.random.below(4) {
            let (offset, byte) = (self.random.below(self.world.low as u64), self.random.below(256) as u8);
            let length = self.random_length(4096);
            self.push(Event::Store { offset, length, byte });
        }
        if self.world.high > 0 {
            let byte = self.random.below(256) as u8;
            self.push(Event::Store { offset: u64::MAX - 4096, length: 4096, byte });
        }
        for _ in 0..2 + self.random.below(6) {
            self.fill();
        }
    }

    fn random_length(&mut self, most: u64) -> u64 {
        1 + self.random.below(most)
    }

    fn fill(&mut self) {
        let offset = self.random.below(self.world.data);
        let (length, byte) = (self.random_length(1024), self.random.below(256) as u8);
        self.push(Event::Data { offset, length, byte });
    }

    /// A number near a multiple of one of the alignments.
    fn near(&mut self, most: u64) -> u64 {
        let a = self.flight.opening.align;
        let unit = self.random.pick(&[a.req, a.req, a.length(), a.zero, a.discard, 512]).max(1);
        let base = unit * self.random.below((most / unit).clamp(2, 5));
        let shift = self.random.pick(&[0, 0, 0, 1, 10, 100, unit - 1, unit / 2]);
        base + shift
    }

    fn offset(&mut self) -> u64 {
        let near = self.near(self.world.low as u64);
        if !self.random.once_in(8) {
            return near;
        }
        let room = if self.world.is_long() { self.random.pick(&[0, document::LONGEST_VECTOR]) } else { 0 };
        u64::MAX - near - room
    }

    fn range_job(&mut self) -> Begin {
        let job = self.random.pick(&[Job::Zeroes, Job::Zeroes, Job::AllocatedZeroes, Job::Discard]);
        let offset = self.offset();
        let length = match self.random.below(12) {
            0 => self.random.pick(&[0, 1, u64::MAX - offset, u64::MAX, 1 << 20, 3 << 20]),
            _ => self.near(self.world.low as u64) + self.near(4096) / 2,
        };
        Begin::range(job, offset, length)
    }

    /// Segments one after the other, aligned or not: all with gaps, some that touch, or most.
    fn segments(&mut self) -> Vec<Segment> {
        let l = self.flight.opening.align.length().clamp(1, self.world.data);
        let aligned = self.random.once_in(2);
        let count = if self.random.once_in(30) { 15 + self.random.below(3) } else { 1 + self.random.below(3) };
        let unit = if aligned { l } else { 1 };
        let start = self.random.below(self.world.data) / unit * unit;
        let longest = if count > 3 { unit * 8 } else { self.near(4096).max(unit) };
        self.segments_from(start, count, unit, longest)
    }

    fn segments_from(&mut self, mut start: u64, count: u64, unit: u64, longest: u64) -> Vec<Segment> {
        let gaps = self.random.pick(&[[1, 1, 2], [0, 1, 2], [0, 0, 1]]);
        let mut segments = Vec::new();
        for _ in 0..count {
            let length = self.random_length(longest).div_ceil(unit) * unit;
            segments.push(Segment { start, length });
            start += length + unit * self.random.pick(&gaps);
        }
        segments
    }

    /// About as many segments as a vector takes, in the middle of the data, so that they lie in it.
    fn many_segments(&mut self) -> Vec<Segment> {
        let unit = self.random.pick(&[1, 1, 8, 16]);
        let count = 15 + self.random.below(3);
        self.segments_from(self.world.data / 2, count, unit, 2 * unit)
    }

    /// A segment is cut in two that touch, and now and then an empty one stands between them.
    fn cut(&mut self, segments: &mut Vec<Segment>) {
        let at = self.random.below(segments.len() as u64) as usize;
        let whole = segments[at];
        let head = 1 + self.random.below(whole.length.max(2) - 1);
        let tail = Segment { start: whole.start + head, length: whole.length.max(2) - head };
        segments[at].length = head;
        segments.insert(at + 1, tail);
        if self.random.once_in(8) {
            segments.insert(at + 1, Segment { start: tail.start, length: 0 });
        }
    }

    /// Two segments whose total is a multiple of L while their lengths are not: a write of them is padded, and may read nothing.
    fn uneven_segments(&mut self) -> Vec<Segment> {
        let l = self.flight.opening.align.length().clamp(2, self.world.data);
        let total = l * (1 + self.random.below(3));
        let first = 1 + self.random.below(total - 1);
        let start = self.random.below(self.world.data) / l * l;
        let second = start + first + self.random.below(8);
        vec![Segment { start, length: first }, Segment { start: second, length: total - first }]
    }

    /// One or two segments whose total is about the longest that a vector, or a share, takes.
    fn long_segments(&mut self) -> Vec<Segment> {
        let l = self.flight.opening.align.length().clamp(1, 65_536);
        let most = document::LONGEST_VECTOR;
        let total = self.random.pick(&[most, most - l, most - 2 * l, most - 3 * l]);
        let total = total + self.random.pick(&[0, 0, 0, 1, l - 1, l / 2]);
        let unit = self.random.pick(&[1, l]);
        let mut start = self.random.below(self.world.data - total) / unit * unit;
        let cut = (1 + self.random.below(total - 1)).div_ceil(unit) * unit;
        let mut segments = Vec::new();
        for length in self.random.pick(&[[total, 0], [cut, total - cut.min(total)]]) {
            segments.push(Segment { start, length });
            start += length + unit * self.random.below(3);
        }
        segments.retain(|s| s.length > 0);
        segments
    }

    fn vector_job(&mut self) -> Begin {
        let job = self.random.pick(&[Job::Read, Job::Write, Job::Write]);
        let offset = self.offset();
        let fits = |s: &Vec<Segment>, m: &Maker| document::vector(&document::pushed(s), m.world.data) == 0;
        let apart = |s: &Vec<Segment>, m: &Maker| !s.iter().any(|s| m.flight.uses(s));
        let uneven = self.random.once_in(5);
        let long = self.world.is_long() && self.random.once_in(3);
        let make = |m: &mut Maker| match (long, uneven) {
            (true, _) => m.long_segments(),
            (_, true) => m.uneven_segments(),
            _ => m.segments(),
        };
        let mut segments = make(self);
        for _ in 0..6 {
            if fits(&segments, self) && apart(&segments, self) {
                break;
            }
            segments = make(self);
        }
        match self.random.below(60) {
            0 => segments.clear(),
            1 | 2 => segments = self.many_segments(),
            3..=8 => self.cut(&mut segments),
            _ => {}
        }
        Begin::vector(job, offset, self.handed_in(segments))
    }

    /// As many of the list as a script can say; elsewhere the list as it is, or as a host hands it in that pushes it.
    fn handed_in(&mut self, mut segments: Vec<Segment>) -> Vec<Segment> {
        if self.world.scripts {
            segments.truncate(REPLAY_SEGMENTS);
            segments
        } else if self.random.once_in(2) {
            document::pushed(&segments)
        } else {
            segments
        }
    }

    /// Whether an event is one of the combined calls, of which scripts have none.
    fn is_combined(&mut self) -> bool {
        !self.world.scripts && self.random.once_in(2)
    }

    fn begin(&mut self) {
        let begin = if self.random.below(3) == 0 { self.range_job() } else { self.vector_job() };
        let event = if self.is_combined() { Event::Submit(begin) } else { Event::Begin(begin) };
        self.push(event);
    }

    fn tell(&mut self, slot: u64, code: u8) {
        let event = if self.is_combined() { Event::Complete { slot, code } } else { Event::Tell { slot, code } };
        self.push(event);
    }

    fn collect(&mut self, slot: u64) {
        let event = if self.is_combined() { Event::ShowSlot(slot) } else { Event::Collect(slot) };
        self.push(event);
    }

    /// A code for a request; where 1 has a fallback it comes more often.
    fn code(&mut self, kind: Kind) -> u8 {
        let has_fallback = !matches!(kind, Kind::Read | Kind::Write);
        if has_fallback && self.random.once_in(3) {
            return 1;
        }
        match self.random.below(20) {
            0..=15 => 0,
            16..=17 => 1,
            _ => self.random.pick(&[2, 5, 38, 95, 199]),
        }
    }

    fn act(&mut self, kind: Kind) -> Act {
        let word = self.random.word();
        let choice = self.random.pick(&[None, Some(word), Some(word), Some(u64::MAX), Some(0x5555_5555_5555_5555)]);
        let code = if self.random.once_in(200) { 200 } else { self.code(kind) };
        Act { code, choice }
    }

    /// What the job of a view needs: a carry, the tell of its code, or a collect.
    fn serve(&mut self, view: &View) {
        let slot = view.slot as u64;
        match (&view.due, self.session.carried(view.slot)) {
            (Due::Make(request), None) => {
                let act = self.act(request.kind);
                self.push(Event::Carry { slot, act });
            }
            (Due::Make(_), Some(code)) => self.tell(slot, code),
            (Due::Answer(_), _) => self.collect(slot),
            _ => {}
        }
    }

    fn serve_any(&mut self) {
        if self.seen.views.is_empty() {
            return self.begin();
        }
        let at = self.random.below(self.seen.views.len() as u64) as usize;
        let view = self.seen.views[at].clone();
        self.serve(&view);
    }

    /// An event that fits nothing in particular.
    fn noise(&mut self) {
        let slot = self.random.pick(&[0, 1, 2, 3, 4, 5, 6, 7, 8, u64::MAX]);
        let code = self.random.pick(&[0, 1, 5, 200, 255]);
        let event = match self.random.below(5) {
            0 if self.is_combined() => Event::ShowSlot(slot),
            0 => Event::Next(slot),
            1 => return self.tell(slot, code),
            2 => return self.collect(slot),
            3 => Event::Show { offset: self.near(self.world.low as u64), length: self.random.below(65) },
            _ => Event::Carry { slot, act: Act { code: code.min(5), choice: None } },
        };
        self.push(event);
    }

    pub fn any(&mut self) {
        match self.random.below(20) {
            0..=5 => self.begin(),
            6 => self.fill(),
            7 => self.noise(),
            _ => self.serve_any(),
        }
    }

    /// Serves every job to its end; one whose carry is no answer stays.
    pub fn drain(&mut self) {
        for _ in 0..40 * SLOTS {
            let views = self.seen.views.clone();
            let Some(view) = views.iter().find(|v| self.can_serve(v)) else { return };
            self.serve(view);
        }
    }

    fn can_serve(&self, view: &View) -> bool {
        let stuck = self.session.carried(view.slot).is_some_and(|code| code >= document::FIRST_NO_ANSWER);
        !stuck && !matches!(view.due, Due::Waiting)
    }
}
