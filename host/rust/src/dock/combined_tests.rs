//! The combined calls beside the separate ones: on two docks over the same random list, one by combined calls or either
//! form, the other by separate calls alone, every answer, every byte and every word past the settings is the same after
//! every call.

use super::*;
use crate::answer::Request;
use crate::draw::Draw;
use crate::raw::Copied;
use crate::vector::SEGMENTS;
use std::collections::BTreeMap;

const DATA: usize = 8192;
const ALIGN: usize = 65_536;

/// What was shown, with where the first piece lies and its bytes.
#[derive(Clone, Debug, PartialEq)]
enum Seen {
    Refused(Refusal),
    Answer(Answer),
    Waiting(usize),
    Make(usize, Request, Option<SeenPiece>),
}

/// Whether it is to be filled, how far into the data or past it into the scratch it starts, and its bytes.
type SeenPiece = (bool, usize, Vec<u8>);

/// A begin, as both forms take it.
#[derive(Clone, Copy, Debug)]
struct Asked {
    kind: Kind,
    offset: u64,
    length: u64,
    vector: Vector,
}

fn piece_of(piece: &Piece<'_>) -> (bool, *const u8, Vec<u8>) {
    (matches!(piece, Piece::Fill(_)), piece.bytes().as_ptr(), piece.bytes().to_vec())
}

/// What a combined call has shown.
fn seen<'b>(dock: &mut Dock<'b>, call: impl for<'a> FnOnce(&'a mut Dock<'b>) -> Shown<'a>) -> Seen {
    let (slot, request, first) = match call(dock) {
        Shown::Refused(refusal) => return Seen::Refused(refusal),
        Shown::Answer(answer) => return Seen::Answer(answer),
        Shown::Waiting(slot) => return Seen::Waiting(slot),
        Shown::Make { slot, request, first } => (slot, request, first.as_ref().map(piece_of)),
    };
    Seen::Make(slot, request, first.map(|(fills, start, bytes)| (fills, dock.words.place_of(start), bytes)))
}

/// The piece of a request, by the separate call.
fn separate_piece(dock: &mut Dock<'_>, slot: usize, i: usize) -> Result<SeenPiece, Refusal> {
    let (fills, start, bytes) = dock.piece(slot, i).map(|piece| piece_of(&piece))?;
    Ok((fills, dock.words.place_of(start), bytes))
}

/// What show is by its definition: next, and then piece 0 or collect.
fn separate_show(dock: &mut Dock<'_>, slot: usize) -> Seen {
    match dock.next(slot) {
        Err(refusal) => Seen::Refused(refusal),
        Ok(Due::Waiting) => Seen::Waiting(slot),
        Ok(Due::Answer(answer)) => {
            assert_eq!(dock.collect(slot), Ok(answer));
            Seen::Answer(answer)
        }
        Ok(Due::Make(request)) => {
            let first = (request.pieces > 0).then(|| separate_piece(dock, slot, 0).unwrap());
            Seen::Make(slot, request, first)
        }
    }
}

fn separate_submit(dock: &mut Dock<'_>, a: &Asked) -> Seen {
    let begun = match a.kind {
        Kind::Read => dock.begin_read(a.offset, &a.vector),
        Kind::Write => dock.begin_write(a.offset, &a.vector),
        Kind::Zero => dock.begin_zeroes(false, a.offset, a.length),
        Kind::AllocatedZero => dock.begin_zeroes(true, a.offset, a.length),
        Kind::Discard => dock.begin_discard(a.offset, a.length),
    };
    match begun {
        Err(refusal) => Seen::Refused(refusal),
        Ok(Begun::Done) => Seen::Answer(Answer::Done),
        Ok(Begun::Slot(slot)) => separate_show(dock, slot),
    }
}

fn combined_submit(dock: &mut Dock<'_>, a: &Asked) -> Seen {
    seen(dock, |dock| match a.kind {
        Kind::Read => dock.submit_read(a.offset, &a.vector),
        Kind::Write => dock.submit_write(a.offset, &a.vector),
        Kind::Zero => dock.submit_zeroes(false, a.offset, a.length),
        Kind::AllocatedZero => dock.submit_zeroes(true, a.offset, a.length),
        Kind::Discard => dock.submit_discard(a.offset, a.length),
    })
}

fn separate_complete(dock: &mut Dock<'_>, slot: usize, code: u8) -> Seen {
    match dock.tell(slot, code) {
        Err(refusal) => Seen::Refused(refusal),
        Ok(()) => separate_show(dock, slot),
    }
}

/// Two docks over buffers at the same places modulo all alignments, and what is drawn.
struct Pair<'a> {
    mixed: Dock<'a>,
    separate: Dock<'a>,
    settings: Settings,
    /// The words of the settings of each, which hold the addresses: no call changes them.
    settings_words: [Vec<u64>; 2],
    draw: Draw,
    /// One call in so many is made in separate calls on both; none where it is 0.
    separate_in: u64,
    counts: &'a mut BTreeMap<String, u64>,
}

/// Words of the settings.
const SETTINGS_WORDS: usize = 9;

impl Pair<'_> {
    fn count(&mut self, call: &str, seen: &Seen) {
        let what = match seen {
            Seen::Refused(refusal) => format!("{call}: refused {}", refusal.number()),
            Seen::Answer(answer) => format!("{call}: answer {}", answer.number()),
            Seen::Waiting(_) => format!("{call}: waiting"),
            Seen::Make(_, request, _) => format!("{call}: {:?} of {} pieces", request.kind, request.pieces.min(2)),
        };
        *self.counts.entry(what).or_default() += 1;
    }

    /// Both docks are the same in every word and byte, and a refused call has changed nothing of the first.
    fn compare(&mut self, call: &str, seen: (Seen, Seen), before: &Copied) -> Seen {
        assert_eq!(seen.0, seen.1, "{call}");
        let (words, bytes, in_flight, lent, out) = self.mixed.words.copied();
        let (other, other_bytes, other_in_flight, ..) = self.separate.words.copied();
        let differ = |(i, (a, b)): (usize, (&u64, &u64))| (a != b).then(|| format!("word {i}: {a}, {b}"));
        let pairs = words.iter().zip(&other).enumerate().skip(SETTINGS_WORDS);
        let differences: Vec<String> = pairs.filter_map(differ).collect();
        assert!(differences.is_empty(), "{call} {:?}: {differences:?}", seen.0);
        assert!(bytes == other_bytes, "{call} {:?}: bytes differ", seen.0);
        assert!(in_flight == other_in_flight && lent == [false; SLOTS], "{call} {:?}", seen.0);
        assert!(words[..SETTINGS_WORDS] == self.settings_words[0] && other[..SETTINGS_WORDS] == self.settings_words[1]);
        if matches!(seen.0, Seen::Refused(_)) {
            assert!(*before == (words, bytes, in_flight, lent, out), "{call}: a refused call changed something");
        }
        self.count(call, &seen.0);
        seen.0
    }

    fn submit(&mut self) {
        let asked = self.asked();
        let before = self.mixed.words.copied();
        let one = match self.draw.one_in(self.separate_in) {
            true => separate_submit(&mut self.mixed, &asked),
            false => combined_submit(&mut self.mixed, &asked),
        };
        let other = separate_submit(&mut self.separate, &asked);
        self.compare("submit", (one, other), &before);
    }

    fn complete(&mut self, slot: usize, code: u8) {
        let before = self.mixed.words.copied();
        let one = match self.draw.one_in(self.separate_in) {
            true => separate_complete(&mut self.mixed, slot, code),
            false => seen(&mut self.mixed, |dock| dock.complete(slot, code)),
        };
        let other = separate_complete(&mut self.separate, slot, code);
        self.compare("complete", (one, other), &before);
    }

    fn show(&mut self, slot: usize) -> Seen {
        let before = self.mixed.words.copied();
        let one = match self.draw.one_in(self.separate_in) {
            true => separate_show(&mut self.mixed, slot),
            false => seen(&mut self.mixed, |dock| dock.show(slot)),
        };
        let other = separate_show(&mut self.separate, slot);
        let shown = self.compare("show", (one, other), &before);
        if !matches!(shown, Seen::Answer(_)) {
            let (words, bytes, in_flight, lent, _) = self.mixed.words.copied();
            assert!((words, bytes, in_flight, lent) == (before.0, before.1, before.2, before.3), "show changed {slot}");
        }
        shown
    }

    /// The request of a slot is carried out on both docks: a read leaves drawn bytes, done or failed; what a write
    /// takes is the same on both. Then its code is handed in.
    fn serve(&mut self, slot: usize) {
        let Seen::Make(_, request, _) = self.show(slot) else { return };
        let fill = self.draw.any();
        for i in 0..request.pieces {
            for dock in [&mut self.mixed, &mut self.separate] {
                if let Piece::Fill(bytes) = dock.piece(slot, i).unwrap() {
                    let mut draw = Draw::new(fill.wrapping_add(i as u64));
                    bytes.iter_mut().for_each(|byte| *byte = draw.any() as u8);
                }
            }
            let pieces = [&mut self.mixed, &mut self.separate].map(|dock| separate_piece(dock, slot, i));
            assert_eq!(pieces[0], pieces[1]);
        }
        let code = match self.draw.below(12) {
            0 => 2 + self.draw.below(198) as u8,
            1 | 2 => 1,
            3 => 200 + self.draw.below(56) as u8,
            _ => 0,
        };
        self.complete(slot, code);
    }

    fn near(&mut self) -> u64 {
        let s = &self.settings;
        let unit = [s.req, s.req, s.mem, s.zero, s.discard][self.draw.below(5) as usize];
        unit * self.draw.below(4) + [0, 0, 0, 1, 10, 100, unit - 1, unit / 2][self.draw.below(8) as usize]
    }

    fn vector(&mut self) -> Vector {
        let count = if self.draw.one_in(20) { 14 + self.draw.below(4) } else { 1 + self.draw.below(3) };
        let unit = if self.draw.one_in(2) { self.settings.req.max(self.settings.mem) as usize } else { 1 };
        let (mut vector, mut start) = (Vector::new(), self.draw.below(DATA as u64) as usize / unit * unit);
        for _ in 0..count.min(SEGMENTS as u64 + 1) {
            let length = (1 + self.draw.below(700) as usize).next_multiple_of(unit);
            vector.push(start, if self.draw.one_in(80) { 0 } else { length });
            start += length + unit * self.draw.below(3) as usize;
        }
        match self.draw.below(100) {
            0 => Vector::new(),
            1 => Vector::of(usize::MAX - 5, 10),
            2 => Vector::of(DATA - 3, 4),
            3 => Vector::of(0, usize::MAX),
            _ => vector,
        }
    }

    fn asked(&mut self) -> Asked {
        let kinds = [Kind::Read, Kind::Write, Kind::Write, Kind::Zero, Kind::AllocatedZero, Kind::Discard];
        let near = self.near();
        let offset = if self.draw.one_in(9) { u64::MAX - near } else { near };
        let length = match self.draw.below(15) {
            0 => [0, 1, u64::MAX - offset, u64::MAX, 1 << 20][self.draw.below(5) as usize],
            _ => self.near() + self.near(),
        };
        Asked { kind: kinds[self.draw.below(6) as usize], offset, length, vector: self.vector() }
    }

    /// A slot that has a job, or any number.
    fn slot(&mut self) -> usize {
        match self.draw.below(40) {
            0 => [8, 9, usize::MAX, 1 << 32][self.draw.below(4) as usize],
            drawn => drawn as usize % SLOTS,
        }
    }

    fn step(&mut self) {
        let slot = self.slot();
        match self.draw.below(20) {
            0..=5 => self.submit(),
            6 => {
                let code = self.draw.any() as u8;
                self.complete(slot, code);
            }
            7 => _ = self.show(slot),
            8 => {
                let (start, bytes) = (self.draw.below(DATA as u64) as usize, self.draw.any().to_le_bytes());
                let written = [&mut self.mixed, &mut self.separate].map(|dock| dock.write_data(start, &bytes));
                assert_eq!(written[0], written[1]);
            }
            _ => self.serve(slot),
        }
    }
}

fn draw_settings(draw: &mut Draw) -> Settings {
    let mut settings = Settings::of_row(draw.below(6) as usize, 0).unwrap();
    if draw.one_in(3) {
        let [mem, req, zero, discard] = [(); 4].map(|()| 1 << draw.below(12));
        settings = Settings { mem, req, zero, discard, bounce: 0 };
    }
    let unit = settings.mem.max(settings.req);
    settings.bounce = (2 * settings.zero).next_multiple_of(unit) + 2 * unit + unit * draw.below(4);
    settings
}

/// A list of so many steps; what its calls showed is counted.
fn run_list(seed: u64, steps: u64, counts: &mut BTreeMap<String, u64>) {
    let mut draw = Draw::new(seed);
    let settings = draw_settings(&mut draw);
    let past = [0, 0, 1, settings.mem as usize][draw.below(4) as usize];
    let length = SLOTS * settings.bounce as usize;
    let mut rooms = [(); 2].map(|()| (vec![7; DATA + past + ALIGN], vec![9; length + ALIGN]));
    let mut opened = rooms.iter_mut().map(|(data, scratch)| {
        let data = &mut aligned_part(data, ALIGN)[past..past + DATA];
        Dock::open(&settings, data, &mut aligned_part(scratch, ALIGN)[..length]).unwrap()
    });
    let (mixed, separate) = (opened.next().unwrap(), opened.next().unwrap());
    let settings_words = [&mixed, &separate].map(|dock| dock.words.copied().0[..SETTINGS_WORDS].to_vec());
    let separate_in = [0, 0, 2][draw.below(3) as usize];
    let mut pair = Pair { mixed, separate, settings, settings_words, draw, separate_in, counts };
    (0..steps).for_each(|_| pair.step());
}

#[test]
fn combined_calls_do_what_the_separate_ones_do() {
    let mut counts = BTreeMap::new();
    for seed in 0..LISTS {
        run_list(seed, 150, &mut counts);
    }
    let reached = |what: &str| counts.get(what).copied().unwrap_or(0);
    let refused = [202, 203, 204, 206, 207].map(|number| format!("submit: refused {number}"));
    let told = ["complete: refused 208", "complete: refused 209", "show: refused 208"].map(str::to_owned);
    let kinds =
        ["Read of 1", "Read of 2", "Write of 1", "Write of 2", "Zero of 0", "AllocatedZero of 0", "Discard of 0"];
    let requests = ["submit", "show"].into_iter().flat_map(|call| kinds.map(|kind| format!("{call}: {kind} pieces")));
    let rest = ["submit: answer 0", "submit: waiting", "complete: Read of 1 pieces", "complete: Write of 1 pieces"];
    let ends =
        ["complete: waiting", "complete: answer 0", "complete: answer 1", "complete: answer 207", "show: waiting"];
    let rest = rest.into_iter().chain(ends).map(str::to_owned);
    for what in refused.into_iter().chain(told).chain(requests).chain(rest) {
        assert!(reached(&what) > 0, "{what} is not reached: {counts:?}");
    }
}

/// A debug build takes longer for each.
const LISTS: u64 = if cfg!(debug_assertions) { 40 } else { 400 };
