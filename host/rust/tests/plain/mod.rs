//! The plain byte store of document 01, which follows a run: one byte for each offset, changed only by steps.

pub mod rules;

use pitch_dock::{Carried, Code, Job, Kind, Settings, SLOTS};
use rules::Plan;
use std::ops::Range;

/// Where a run's buffers lie, by which a request's slot is known.
#[derive(Clone, Debug)]
pub struct Places {
    pub data: usize,
    pub part: usize,
    pub scratch: usize,
    pub bounce: usize,
}

impl Places {
    /// Where the bytes of a job in a slot lie.
    pub fn of_job(&self, slot: usize) -> usize {
        self.data + slot * self.part
    }

    /// The slot in whose part of the data or bounce buffer an address lies.
    fn slot(&self, address: usize) -> usize {
        let within = |start: usize, each: usize| {
            let slot = address.checked_sub(start)? / each;
            (slot < SLOTS).then_some(slot)
        };
        let slot = within(self.data, self.part).or_else(|| within(self.scratch, self.bounce));
        slot.expect("a piece lies in the data or in the scratch")
    }
}

/// A job in flight: its plan, and the bytes that it writes or that its step has read.
struct Flight {
    kind: Kind,
    plan: Plan,
    bytes: Vec<u8>,
}

/// The plain byte store.
pub struct Plain {
    settings: Settings,
    places: Places,
    bytes: Vec<u8>,
    flights: [Option<Flight>; SLOTS],
    /// The requests that were carried out and not told yet.
    pub untold: Vec<Carried>,
}

fn usizes(range: &Range<u64>) -> Range<usize> {
    range.start as usize..range.end as usize
}

impl Plain {
    /// With the store's content, and zeroes past it up to `length`, which no range passes.
    pub fn new(settings: Settings, places: Places, content: &[u8], length: usize) -> Plain {
        let mut bytes = content.to_vec();
        bytes.resize(length, 0);
        Plain { settings, places, bytes, flights: [const { None }; SLOTS], untold: Vec::new() }
    }

    /// A job got a slot. `bytes` are a write's.
    pub fn begin(&mut self, slot: usize, job: &Job, bytes: Vec<u8>) {
        let plan = Plan::new(&self.settings, job, self.places.of_job(slot));
        let before = self.flights[slot].replace(Flight { kind: job.kind, plan, bytes });
        assert!(before.is_none(), "slot {slot} was taken");
    }

    /// A request was told this code: it is the one that is out by the rules, it was carried out, and the code is its own.
    pub fn tell(&mut self, slot: usize, request: (Kind, Range<u64>), code: Code) {
        let (kind, range) = &request;
        let is_it = |c: &Carried| {
            let same = (c.kind, c.offset, c.offset + c.length, c.code) == (*kind, range.start, range.end, code);
            same && (c.address == 0 || self.places.slot(c.address) == slot)
        };
        let at = self.untold.iter().position(is_it);
        self.untold.swap_remove(at.expect("a code of a request that was carried out"));
        let plan = &mut self.flights[slot].as_mut().expect("a job in flight").plan;
        assert_eq!(request, plan.request(), "the request of slot {slot}");
        plan.tell(code);
    }

    /// A job has ended: its answer's number by the rules, and the bytes that a read's step has yielded.
    pub fn end(&mut self, slot: usize) -> (u8, Vec<u8>) {
        let flight = self.flights[slot].take().expect("a job in flight");
        (flight.plan.answer.expect("the job has ended by the rules"), flight.bytes)
    }

    /// A request was carried out: the step of the plain byte store. `store` has the real store's bytes after it, from
    /// which its choices are taken: each byte of a failed request is old or new.
    pub fn carry(&mut self, carried: &Carried, store: &[u8]) {
        let range = carried.offset..carried.offset + carried.length;
        self.untold.push(*carried);
        match carried.kind {
            Kind::Read | Kind::Write => self.move_bytes(carried, &range, store),
            Kind::Zero | Kind::AllocatedZero => {
                let zeroes = vec![0; carried.length as usize];
                put(&mut self.bytes[usizes(&range)], &zeroes, carried.code, &after(store, &range));
            }
            Kind::Discard => self.bytes[usizes(&range)].copy_from_slice(&after(store, &range)),
        }
        assert_eq!(self.bytes[usizes(&range)], after(store, &range), "the bytes of {carried:?}");
    }

    /// A read or a write: only the stage's asked range counts, so what stands around it must be as it was.
    fn move_bytes(&mut self, carried: &Carried, range: &Range<u64>, store: &[u8]) {
        let slot = self.places.slot(carried.address);
        let flight = self.flights[slot].as_mut().expect("a request of a job in flight");
        assert_eq!((carried.kind, range.clone()), flight.plan.request(), "the request of slot {slot}");
        let asked = &flight.plan.stage.asked;
        let plain = &mut self.bytes[usizes(asked)];
        match (carried.kind, flight.kind) {
            (Kind::Read, Kind::Read) if carried.code == Code::DONE => flight.bytes = plain.to_vec(),
            (Kind::Read, _) => {}
            (_, Kind::Write) => put(plain, &flight.bytes, carried.code, &after(store, asked)),
            _ => put(plain, &vec![0; plain.len()], carried.code, &after(store, asked)),
        }
    }

    /// Whether the real store holds the same bytes, and zeroes past its end.
    pub fn is_as(&self, store: &[u8]) -> bool {
        let (same, past) = self.bytes.split_at(store.len());
        same == store && past.iter().all(|&byte| byte == 0)
    }
}

/// A range of the real store, zeroes past its end.
fn after(store: &[u8], range: &Range<u64>) -> Vec<u8> {
    let (start, end) = (store.len().min(range.start as usize), store.len().min(range.end as usize));
    let mut bytes = store[start..end].to_vec();
    bytes.resize((range.end - range.start) as usize, 0);
    bytes
}

/// A write or zero step: with code 0 all bytes become new, otherwise those of which the real store has the new one.
fn put(plain: &mut [u8], new: &[u8], code: Code, after: &[u8]) {
    if code == Code::DONE {
        return plain.copy_from_slice(new);
    }
    for ((byte, new), after) in plain.iter_mut().zip(new).zip(after) {
        if after == new {
            *byte = *new;
        }
    }
}
