//! A list that shows a difference, made as small as it gets.

use crate::event::Event;
use crate::side::{Act, Alignments, Begin, Lent, Opening, SLOTS};

/// The smallest list found that still differs: fewer events first, then smaller numbers.
pub fn shrink(events: &[Event], mut differs: impl FnMut(&[Event]) -> bool) -> Vec<Event> {
    let mut list = events.to_vec();
    loop {
        let before = list.clone();
        remove_events(&mut list, &mut differs);
        remove_slots(&mut list, &mut differs);
        shrink_numbers(&mut list, &mut differs);
        if list == before {
            return list;
        }
    }
}

/// Takes out runs of events, long ones first, while the rest still differs.
fn remove_events(list: &mut Vec<Event>, differs: &mut impl FnMut(&[Event]) -> bool) {
    let mut run = list.len() / 2;
    while run > 0 {
        let mut at = 0;
        while at < list.len() {
            let end = (at + run).min(list.len());
            let rest: Vec<Event> = list[..at].iter().chain(&list[end..]).cloned().collect();
            if differs(&rest) {
                *list = rest;
            } else {
                at = end;
            }
        }
        run /= 2;
    }
}

/// The event without the job of `slot`: later slots move down by one, and events in it are none.
fn without_slot(event: &Event, gone: u64) -> Option<Event> {
    let moved = |slot: u64| if slot > gone && slot < SLOTS as u64 { slot - 1 } else { slot };
    match event {
        Event::Next(slot)
        | Event::Collect(slot)
        | Event::Carry { slot, .. }
        | Event::Tell { slot, .. }
        | Event::Complete { slot, .. }
        | Event::ShowSlot(slot)
            if *slot == gone =>
        {
            None
        }
        Event::Next(slot) => Some(Event::Next(moved(*slot))),
        Event::Collect(slot) => Some(Event::Collect(moved(*slot))),
        Event::Carry { slot, act } => Some(Event::Carry { slot: moved(*slot), act: *act }),
        Event::Tell { slot, code } => Some(Event::Tell { slot: moved(*slot), code: *code }),
        Event::Complete { slot, code } => Some(Event::Complete { slot: moved(*slot), code: *code }),
        Event::ShowSlot(slot) => Some(Event::ShowSlot(moved(*slot))),
        other => Some(other.clone()),
    }
}

/// Takes out a begin with its slot, where the rest, its slots counted anew, still differs.
fn remove_slots(list: &mut Vec<Event>, differs: &mut impl FnMut(&[Event]) -> bool) {
    let mut at = 0;
    while at < list.len() {
        let tried = (0..SLOTS as u64).filter(|_| matches!(list[at], Event::Begin(_) | Event::Submit(_))).map(|slot| {
            let rest = list[at + 1..].iter().filter_map(|e| without_slot(e, slot));
            list[..at].iter().cloned().chain(rest).collect::<Vec<_>>()
        });
        match tried.collect::<Vec<_>>().into_iter().find(|rest| differs(rest)) {
            Some(rest) => *list = rest,
            None => at += 1,
        }
    }
}

fn shrink_numbers(list: &mut [Event], differs: &mut impl FnMut(&[Event]) -> bool) {
    for at in 0..list.len() {
        while let Some(smaller) = smaller_events(&list[at]).into_iter().find(|event| {
            let mut tried = list.to_vec();
            tried[at] = event.clone();
            differs(&tried)
        }) {
            list[at] = smaller;
        }
    }
}

/// Smaller numbers than n: none for 0.
fn smaller(n: u64) -> Vec<u64> {
    let mut numbers = vec![0, 1, n / 2, n.saturating_sub(512), n.saturating_sub(1)];
    numbers.retain(|m| *m < n);
    numbers.dedup();
    numbers
}

fn smaller_begins(b: &Begin) -> Vec<Begin> {
    let mut begins: Vec<Begin> = smaller(b.offset).into_iter().map(|offset| Begin { offset, ..b.clone() }).collect();
    if !b.job.has_vector() {
        begins.extend(smaller(b.length).into_iter().map(|length| Begin { length, ..b.clone() }));
        return begins;
    }
    for i in 0..b.segments.len() {
        let mut fewer = b.segments.clone();
        fewer.remove(i);
        begins.push(Begin::vector(b.job, b.offset, fewer));
        for length in smaller(b.segments[i].length) {
            let mut shorter = b.segments.clone();
            shorter[i].length = length;
            begins.push(Begin::vector(b.job, b.offset, shorter));
        }
    }
    begins
}

/// Openings with one alignment of 1, or with the data at address 0.
fn smaller_openings(o: &Opening) -> Vec<Opening> {
    let a = o.align;
    let aligns = [
        Alignments { mem: 1, ..a },
        Alignments { req: 1, ..a },
        Alignments { zero: 1, ..a },
        Alignments { discard: 1, ..a },
    ];
    let mut openings: Vec<Opening> = aligns.into_iter().map(|align| Opening { align, ..*o }).collect();
    openings.push(Opening { data: Lent { address: 0, ..o.data }, ..*o });
    openings.retain(|smaller| smaller != o);
    openings
}

fn smaller_acts(act: &Act) -> Vec<Act> {
    let mut acts = Vec::new();
    if act.choice.is_some() {
        acts.push(Act { choice: None, ..*act });
    }
    if act.code > 2 {
        acts.push(Act { code: 2, ..*act });
    }
    acts
}

fn smaller_events(event: &Event) -> Vec<Event> {
    match event {
        Event::Open(o) => smaller_openings(o).into_iter().map(Event::Open).collect(),
        Event::Begin(b) => smaller_begins(b).into_iter().map(Event::Begin).collect(),
        Event::Submit(b) => smaller_begins(b).into_iter().map(Event::Submit).collect(),
        Event::Carry { slot, act } => {
            smaller_acts(act).into_iter().map(|act| Event::Carry { slot: *slot, act }).collect()
        }
        Event::Data { offset, length, byte } => {
            smaller(*length).into_iter().map(|length| Event::Data { offset: *offset, length, byte: *byte }).collect()
        }
        Event::Store { offset, length, byte } => {
            smaller(*length).into_iter().map(|length| Event::Store { offset: *offset, length, byte: *byte }).collect()
        }
        _ => Vec::new(),
    }
}
