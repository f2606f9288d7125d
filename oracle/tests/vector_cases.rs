//! Lines that the program `vector_cases` of this repository prints, given by imago's vectors after the same joining.

use oracle::imago_parts::ImagoVectors;
use oracle::side::{Halves, Segment, Vectors};

const PRINTED: &str = include_str!("../../crates/vector_cases/stdout");
const LETTERS: &[u8] = b"abcdefghijklmnopqrstuvwxyz";

fn check(line: String) {
    assert!(PRINTED.lines().any(|printed| printed == line), "vector_cases does not print: {line}");
}

fn segments(list: &[(u64, u64)]) -> Vec<Segment> {
    list.iter().map(|(start, length)| Segment { start: *start, length: *length }).collect()
}

/// One byte each, the last at 0: none touches the one after it.
fn downward(n: u64) -> Vec<Segment> {
    (0..n).rev().map(|start| Segment { start, length: 1 }).collect()
}

fn three() -> Vec<Segment> {
    segments(&[(2, 3), (8, 4), (20, 5)])
}

/// 2 segments, 3 bytes 0+2 6+1
fn text(v: &[Segment]) -> String {
    let total: u64 = v.iter().map(|s| s.length).sum();
    let parts: String = v.iter().map(|s| format!(" {}+{}", s.start, s.length)).collect();
    format!("{} segments, {total} bytes{parts}", v.len())
}

/// What `vector_cases` prints after a call on v: a refused one leaves it as it was.
fn changed(v: &[Segment], result: Result<Vec<Segment>, u8>) -> String {
    match result {
        Ok(after) => format!("done, {}", text(&after)),
        Err(number) => format!("{number}, {}", text(v)),
    }
}

fn halves(mid: u64, h: Halves) -> String {
    format!("split at {mid}: done, {} | {}, {} looked at", text(&h.head), text(&h.tail), h.looked)
}

#[test]
fn splits() {
    let mut side = ImagoVectors::new(LETTERS);
    for mid in [0, 1, 2, 3, 4, 6, 7, 8, 11, 12, 13, u64::MAX] {
        check(halves(mid, side.split_at(&three(), mid)));
    }
    for mid in [0, 1] {
        check(halves(mid, side.split_at(&[], mid)));
    }
    for mid in [6, 7, 8] {
        check(halves(mid, side.split_at(&segments(&[(2, 3), (8, 4), (19, 7)]), mid)));
    }
    for mid in [0, 3, 4, 7, 12, 13] {
        let tail = side.split_tail_at(&three(), mid);
        check(format!("tail from {mid}: done, {}, {} looked at", text(&tail.segments), tail.looked));
    }
}

/// A push on a vector, under the program's label.
fn check_push(side: &mut ImagoVectors, label: &str, v: &[Segment], (start, length): (u64, u64)) {
    check(format!("push {label}: {}", changed(v, side.push(v, Segment { start, length }))));
}

fn check_insert(side: &mut ImagoVectors, label: &str, (v, index): (&[Segment], usize), (start, length): (u64, u64)) {
    check(format!("insert {label}: {}", changed(v, side.insert(v, index, Segment { start, length }))));
}

fn check_append(side: &mut ImagoVectors, label: &str, v: &[Segment], other: &[Segment]) {
    check(format!("append {label}: {}", changed(v, side.append(v, other))));
}

#[test]
fn pushes() {
    let mut eight = ImagoVectors::new(&LETTERS[..8]);
    let v = segments(&[(0, 2)]);
    check_push(&mut eight, "one short of the end of 8", &v, (6, 1));
    check_push(&mut eight, "up to the end of 8", &v, (7, 1));
    check_push(&mut eight, "behind the end of 8", &v, (8, 1));
    let mut side = ImagoVectors::new(&[0; 2_000_000]);
    let v = segments(&[(4, 2)]);
    check_push(&mut side, "where the last ends", &v, (6, 3));
    check_push(&mut side, "one behind the last", &v, (7, 3));
    check_push(&mut side, "from inside the last", &v, (5, 3));
    check_push(&mut side, "up to the last", &v, (0, 4));
    check_push(&mut side, "an empty one where the last ends", &v, (6, 0));
    let full = segments(&[(4, 1_048_575)]);
    check_push(&mut side, "up to 1048576 bytes in one", &full, (1_048_579, 1));
    check_push(&mut side, "past 1048576 bytes in one", &full, (1_048_579, 2));
}

#[test]
fn counts() {
    let mut side = ImagoVectors::new(&[0; 100]);
    let fifteen = downward(15);
    let sixteen = [&fifteen[..], &segments(&[(15, 1)])].concat();
    check_push(&mut side, "the 16th", &fifteen, (15, 1));
    check_push(&mut side, "the 17th", &sixteen, (17, 1));
    check_push(&mut side, "to the 16th", &sixteen, (16, 1));
    check_push(&mut side, "an empty one to the 16th", &sixteen, (16, 0));
    check_insert(&mut side, "the 16th", (&fifteen, 0), (15, 1));
    check_insert(&mut side, "the 17th", (&sixteen, 0), (16, 1));
    check_insert(&mut side, "into 16, touching one", (&sixteen, 15), (1, 1));
    check_insert(&mut side, "into 16, touching two", (&sixteen, 15), (1, 14));
    let forty = (0..40).fold(Vec::new(), |v, start| side.push(&v, Segment { start, length: 1 }).expect("it joins"));
    check(format!("40 pushes side by side: {}", text(&forty)));
}

#[test]
fn inserts() {
    let mut side = ImagoVectors::new(&[0; 100]);
    let v = segments(&[(10, 1), (20, 2)]);
    for (label, index) in [("at 0", 0), ("at 1", 1), ("at the count", 2), ("past the count", 3)] {
        check_insert(&mut side, label, (&v, index), (30, 3));
    }
    let v = segments(&[(10, 2), (16, 4)]);
    check_insert(&mut side, "where the first ends", (&v, 1), (12, 1));
    check_insert(&mut side, "up to the second", (&v, 1), (15, 1));
    check_insert(&mut side, "between the two", (&v, 1), (12, 4));
    check_insert(&mut side, "one short of the second", (&v, 1), (12, 3));
    check_insert(&mut side, "up to the first", (&v, 0), (9, 1));
    check_insert(&mut side, "where the last ends", (&v, 2), (20, 5));
    check_insert(&mut side, "an empty one where the first ends", (&v, 1), (12, 0));
    check_insert(&mut side, "before two that touch", (&segments(&[(10, 2), (12, 4)]), 0), (30, 1));
}

#[test]
fn appends() {
    let mut side = ImagoVectors::new(&[0; 2_000_000]);
    let half = segments(&[(0, 524_288)]);
    check_append(&mut side, "nothing", &half, &[]);
    check_append(&mut side, "to nothing", &[], &half);
    check_append(&mut side, "up to 1048576 bytes", &half, &half);
    check_append(&mut side, "one byte more", &half, &segments(&[(0, 524_289)]));
    let eight = downward(8);
    check_append(&mut side, "8 to 8", &eight, &eight);
    check_append(&mut side, "9 to 8", &eight, &downward(9));
    let nine = [&segments(&[(1, 1)]), &eight[..]].concat();
    check_append(&mut side, "9 to 8, the last of which it touches", &eight, &nine);
}

fn ascii(bytes: &[u8]) -> String {
    String::from_utf8(bytes.to_vec()).expect("letters")
}

#[test]
fn copies_and_fills() {
    let mut into = [b'.'; 12];
    assert_eq!(ImagoVectors::new(LETTERS).copy_into_slice(&three(), &mut into), 0);
    check(format!("copy into 12 bytes: done, {}", ascii(&into)));
    let mut side = ImagoVectors::new(LETTERS);
    assert_eq!(side.copy_from_slice(&three(), b"ABCDEFGHIJKL"), 0);
    check(format!("copy from 12 bytes: done, {}", ascii(side.data())));
    let mut side = ImagoVectors::new(LETTERS);
    side.fill(&three(), b'.');
    check(format!("fill: done, {}", ascii(side.data())));
}

/// imago's copy has the vector's length, by construction; a lent buffer of another length is document 01's 202.
#[test]
fn owned_copies() {
    let owned = ImagoVectors::new(LETTERS).owned(&three());
    check(format!("own in {} bytes: done, {}", owned.len(), ascii(&owned)));
    for other in [owned.len() - 1, owned.len() + 1] {
        check(format!("own in {other} bytes: 202, {}", ".".repeat(other)));
    }
}

#[test]
fn alignments() {
    let mut side = ImagoVectors::new(&[0; 8192]);
    let v = segments(&[(512, 1024)]);
    let pushed = side.push(&segments(&[(0, 256)]), Segment { start: 256, length: 256 }).expect("it joins");
    let with = |more: (u64, u64)| segments(&[(512, 1024), more]);
    let cases = [
        ("M 512, R 512, address 4096", v.clone(), 512, 512),
        ("no segment", Vec::new(), 4096, 4096),
        ("M 512, R 2048", v.clone(), 512, 2048),
        ("M 2048, R 512", v, 2048, 512),
        ("M 1, R 512, second one byte short", with((0, 511)), 1, 512),
        ("M 512, R 1, second one byte on", with((1, 512)), 512, 1),
        ("M 512, R 1, second aligned", with((2048, 512)), 512, 1),
        ("M 1, R 512, two halves by hand", segments(&[(0, 256), (256, 256)]), 1, 512),
        ("M 1, R 512, two halves pushed", pushed, 1, 512),
    ];
    for (label, v, mem, req) in cases {
        let answer = if side.is_aligned(&v, mem, req) { "aligned" } else { "unaligned" };
        check(format!("{label}: {answer}"));
    }
}
