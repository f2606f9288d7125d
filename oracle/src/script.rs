//! A script of `replay`, read.

use crate::event::Event;
use crate::side::{Act, Begin, Job, Segment};

fn segments(numbers: &[u64]) -> Vec<Segment> {
    numbers.chunks(2).map(|pair| Segment { start: pair[0], length: pair[1] }).collect()
}

fn byte(n: u64) -> Option<u8> {
    n.try_into().ok()
}

/// A line that is no event gives None.
pub fn parse(line: &str) -> Option<Event> {
    let mut words = line.split(' ');
    let word = words.next()?;
    let numbers: Vec<u64> = words.map(|w| w.parse().ok()).collect::<Option<_>>()?;
    Some(match (word, &numbers[..]) {
        ("open", &[row, bounce]) => Event::OpenRow { row, bounce },
        ("store", &[offset, length, b]) => Event::Store { offset, length, byte: byte(b)? },
        ("data", &[offset, length, b]) => Event::Data { offset, length, byte: byte(b)? },
        ("read", [offset, rest @ ..]) if rest.len() % 2 == 0 => {
            Event::Begin(Begin::vector(Job::Read, *offset, segments(rest)))
        }
        ("write", [offset, rest @ ..]) if rest.len() % 2 == 0 => {
            Event::Begin(Begin::vector(Job::Write, *offset, segments(rest)))
        }
        ("zero", &[offset, length]) => Event::Begin(Begin::range(Job::Zeroes, offset, length)),
        ("alloc", &[offset, length]) => Event::Begin(Begin::range(Job::AllocatedZeroes, offset, length)),
        ("discard", &[offset, length]) => Event::Begin(Begin::range(Job::Discard, offset, length)),
        ("next", &[slot]) => Event::Next(slot),
        ("carry", &[slot, code]) => Event::Carry { slot, act: Act { code: byte(code)?, choice: None } },
        ("carry", &[slot, code, choice]) => Event::Carry { slot, act: Act { code: byte(code)?, choice: Some(choice) } },
        ("tell", &[slot, code]) => Event::Tell { slot, code: byte(code)? },
        ("collect", &[slot]) => Event::Collect(slot),
        ("show", &[offset, length]) => Event::Show { offset, length },
        _ => return None,
    })
}
