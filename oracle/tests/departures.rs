//! The departures of docs/DIFFERENCES.md that a run steps around, each shown on imago by its smallest input.

use imago::io_buffers::IoVector;
use imago::StorageExt;
use oracle::document_parts::{DocumentPlanner, DocumentVectors};
use oracle::document_side::DocumentSide;
use oracle::event::Event;
use oracle::executor::Task;
use oracle::imago_parts::ImagoPlanner;
use oracle::imago_side::ImagoSide;
use oracle::lists::SCRIPTS;
use oracle::port::Port;
use oracle::script::parse;
use oracle::session::{Answer, Session};
use oracle::side::{Lent, Opening, Planner, Segment, Side, Vectors, ROWS};
use std::panic::catch_unwind;
use std::sync::Arc;

fn event(line: &str) -> Event {
    parse(line).expect("an event")
}

/// The bytes that the last event of a list shows.
fn shown(side: impl Side, list: &[&str]) -> Answer {
    let mut session = Session::new(side);
    list.iter().map(|line| session.perform(&event(line)).answer).last().expect("the list has events")
}

#[test]
fn number_3_the_time_of_the_copy() {
    let list = [
        "open 1 4096",
        "data 0 2048 1",
        "write 512 0 512",
        "write 512 1024 256 1536 256",
        "data 1024 1 2",
        "carry 0 0",
        "tell 0 0",
        "carry 1 0",
        "tell 1 0",
        "show 512 1",
    ];
    let content = SCRIPTS.content();
    assert_eq!(shown(DocumentSide::new(&content), &list), Answer::Bytes(vec![1]));
    assert_eq!(shown(ImagoSide::new(&content), &list), Answer::Bytes(vec![2]));
}

fn opening(bounce: u64) -> Opening {
    let none = Lent { address: 0, length: 0 };
    Opening { align: ROWS[1], bounce, data: none, scratch: none }
}

#[test]
fn number_4_the_sum_of_the_planner() {
    let offset = u64::MAX - 511;
    assert_eq!(DocumentPlanner.chunks(&opening(1 << 20), offset, 512), Err(207));
    let wraps = catch_unwind(|| ImagoPlanner.chunks(&opening(1 << 20), offset, 512));
    assert!(wraps.is_err(), "with overflow checks imago panics");
}

#[test]
fn number_5_no_longest_padded_length() {
    let bytes = vec![0u8; 1_048_066];
    let bytes: &'static [u8] = bytes.leak();
    let port = Arc::new(Port::new(ROWS[1]));
    let asked = Arc::clone(&port);
    let mut task = Task::new(async move { asked.writev(IoVector::from(bytes), 511).await });
    assert!(task.poll().is_none());
    let read = port.pending(0).expect("a read is out");
    assert_eq!((read.offset, read.length), (0, 512));
    port.tell(0, 0);
    assert!(task.poll().is_none());
    port.tell(0, 0);
    assert!(task.poll().is_none());
    let write = port.pending(0).expect("a write is out");
    assert_eq!((write.offset, write.length), (0, 1_049_088));
}

#[test]
fn number_6_vectors_that_imago_does_not_take() {
    assert!(catch_unwind(|| IoVector::new().push(&[])).is_err());
    assert!(catch_unwind(|| IoVector::new().insert(1, &[0])).is_err());
    assert!(catch_unwind(|| IoVector::from(&[0u8][..]).copy_into_slice(&mut [0, 0])).is_err());
}

#[test]
fn number_7_no_limit_of_a_vector() {
    let mut v = IoVector::new();
    (0..17).for_each(|_| v.push(&[0]));
    assert_eq!(v.buffer_count(), 17);
    let bytes = vec![0u8; 1_048_577];
    assert_eq!(IoVector::from(&bytes).len(), 1_048_577);
}

#[test]
fn number_9_the_share() {
    let list = ["open 1 4096", "zero 0 4097", "carry 0 1", "tell 0 1", "next 0"];
    let text = |answer: Answer| oracle::trace::answer(&answer);
    let content = SCRIPTS.content();
    assert_eq!(text(shown(DocumentSide::new(&content), &list)), " write 0+4096 from scratch 0+4096");
    assert_eq!(text(shown(ImagoSide::new(&content), &list)), " read 4096+512 into scratch 4096+512");
}

#[test]
fn number_12_segments_that_touch() {
    let bytes = [0u8; 2];
    let mut v = IoVector::from(&bytes[..1]);
    v.push(&bytes[1..]);
    assert_eq!(v.buffer_count(), 2);
    let first = Segment { start: 0, length: 1 };
    let joined = DocumentVectors::new(&bytes).push(&[first], Segment { start: 1, length: 1 });
    assert_eq!(joined, Ok(vec![Segment { start: 0, length: 2 }]));
}
