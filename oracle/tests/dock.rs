//! The dock behind its C boundary: a run finds no difference from imago, and every planted fault. Empty without the static library.
#![cfg(dock)]

use oracle::dock_parts::{DockBlockers, DockVectors, PartSlip, VECTOR_SLIPS};
use oracle::dock_side::{DockPlanner, DockSide, SLIPS};
use oracle::dock_words::*;
use oracle::document::{is_aligned, total, vector, BUFFER, LONGEST_BOUNCE, LONGEST_VECTOR, SEGMENT, UNFIT};
use oracle::document_parts::{DocumentPlanner, DocumentVectors};
use oracle::document_side::NotedBlockers;
use oracle::imago_parts::{ImagoBlockers, ImagoPlanner, ImagoVectors};
use oracle::imago_side::ImagoSide;
use oracle::lists::{Worlds, MEMORY};
use oracle::parts::Found;
use oracle::plant::{Planted, FAULTS};
use oracle::plant_parts::{OneChunkLess, WrongBlockers, WrongVectors, BLOCKER_FAULTS, VECTOR_FAULTS};
use oracle::random::Random;
use oracle::runner::{run_lists, run_parts, vector_data, Run};
use oracle::side::{Alignments, Blockers, Lent, Opening, Planner, Segment, Vectors, ROWS, SLOTS};
use oracle::store::Content;

const RUN: Run = Run::of(400, 11);

#[test]
fn the_dock_agrees() {
    let (_, found) = run_lists(RUN, MEMORY, ImagoSide::new, DockSide::new);
    assert!(found.is_none(), "{:?}", found.map(|f| f.difference));
}

#[test]
fn the_dock_agrees_at_the_share_for_comparison() {
    let (_, found) = run_lists(RUN, Worlds::at(LONGEST_BOUNCE), ImagoSide::new, DockSide::new);
    assert!(found.is_none(), "{:?}", found.map(|f| f.difference));
}

#[test]
fn every_fault_over_the_dock_is_seen() {
    for (name, fault) in FAULTS {
        let planted = |content: &Content| Planted::new(DockSide::new(content), Some(fault));
        let (_, found) = run_lists(RUN, Worlds::at(LONGEST_BOUNCE), ImagoSide::new, planted);
        assert!(found.is_some(), "{name} is not seen");
    }
}

/// A fault over the library's answers that the comparison cannot see; one byte too many is looked for in few calls.
#[test]
fn every_slip_is_seen() {
    for slip in SLIPS {
        let slipping = |content: &Content| DockSide::slipping(content, slip);
        let (_, found) = run_lists(Run::of(1000, 11), Worlds::at(LONGEST_BOUNCE), ImagoSide::new, slipping);
        assert!(found.is_some(), "{slip:?} is not seen");
    }
}

fn parts<B: Blockers>(blockers: impl Fn() -> B, vectors: &mut impl Vectors, planner: &mut impl Planner) -> Found {
    let imago = &mut ImagoVectors::new(&vector_data());
    let (blockers, planners) = ((ImagoBlockers::default, blockers), (&mut ImagoPlanner, planner));
    run_parts(Run::of(2000, 11), blockers, (imago, vectors), planners).1
}

fn vectors() -> DockVectors {
    DockVectors::new(&vector_data())
}

/// Where imago cannot be asked too: sums past 2^64 - 1, chunks of another length than 1 MiB.
#[test]
fn the_planner_agrees_with_the_rules() {
    let mut random = Random::new(11, 0);
    for _ in 0..20_000 {
        let align = random.pick(&ROWS);
        let bounce = random.pick(&[LONGEST_BOUNCE, 262_144, 262_143, 0]);
        let none = Lent { address: 0, length: 0 };
        let opening = Opening { align, bounce, data: none, scratch: none };
        let length = random.below(64) * random.pick(&[align.req, 65_536]) + u64::from(random.once_in(8));
        let near = random.below(80) * align.req + u64::from(random.once_in(8));
        let offset = random.pick(&[near, u64::MAX - near, (u64::MAX - near) / align.req * align.req]);
        let (rules, dock) =
            (DocumentPlanner.chunks(&opening, offset, length), DockPlanner.chunks(&opening, offset, length));
        assert_eq!(rules, dock, "{opening:?} offset {offset} length {length}");
    }
}

#[test]
fn parts_agree() {
    assert_eq!(parts(DockBlockers::default, &mut vectors(), &mut DockPlanner), None);
}

#[test]
fn every_fault_over_a_part_is_seen() {
    assert!(parts(DockBlockers::default, &mut vectors(), &mut OneChunkLess(DockPlanner)).is_some());
    for fault in VECTOR_FAULTS {
        let found = parts(DockBlockers::default, &mut WrongVectors(vectors(), fault), &mut DockPlanner);
        assert!(found.is_some(), "{fault} is not seen");
    }
    for fault in BLOCKER_FAULTS {
        let wrong = || WrongBlockers(DockBlockers::default(), fault);
        assert!(parts(wrong, &mut vectors(), &mut DockPlanner).is_some(), "{fault:?} is not seen");
    }
}

#[test]
fn every_slip_of_a_part_is_seen() {
    for slip in VECTOR_SLIPS {
        let slipping = &mut DockVectors::slipping(&vector_data(), slip);
        assert!(parts(DockBlockers::default, slipping, &mut DockPlanner).is_some(), "{slip:?} is not seen");
    }
    let slipping = || DockBlockers::slipping(PartSlip::RefusalChanges);
    assert!(parts(slipping, &mut vectors(), &mut DockPlanner).is_some());
}

const LONG: u64 = LONGEST_VECTOR + 262_144;

/// A segment at or past a limit, or a short one.
fn extreme(random: &mut Random) -> Segment {
    let near = random.below(3);
    let start = random.pick(&[near, 512 * near, LONG - near, LONG - LONGEST_VECTOR + near, u64::MAX - near]);
    let length = random.pick(&[1 + near, LONGEST_VECTOR / 4, LONGEST_VECTOR - near, LONGEST_VECTOR + near, u64::MAX]);
    Segment { start, length }
}

/// Such a one, or one that touches a segment of a vector or nearly does, empty or as long as has room or a byte longer.
fn extreme_beside(random: &mut Random, v: &[Segment]) -> Segment {
    let s = extreme(random);
    if v.is_empty() || random.once_in(2) {
        return s;
    }
    let other = random.pick(v);
    let room = LONGEST_VECTOR - total(v);
    let length = random.pick(&[s.length, 1, 1, room / 2, room, room + 1, 0]);
    let (end, before) = (other.start + other.length, other.start.wrapping_sub(length));
    Segment { start: random.pick(&[end, end, before, end + 1, end - 1]), length }
}

/// Where imago has no answer: totals about 1,048,576, segments about the data's end and about 2^64.
#[test]
fn vectors_agree_with_the_rules_at_their_limits() {
    let data = vec![0; LONG as usize];
    let (mut rules, mut dock) = (DocumentVectors::new(&data), DockVectors::new(&data));
    let mut random = Random::new(11, 1);
    let (mut v, mut joined, mut joined_to_longest) = (Vec::new(), 0, 0);
    for _ in 0..40_000 {
        let s = extreme_beside(&mut random, &v);
        let index = random.pick(&[0, 1, v.len() / 2, v.len(), v.len() + 1, 16, 17, usize::MAX]);
        let (end, half) = (total(&v), total(&v) / 2);
        let mid = random.pick(&[0, 1, s.length, half, half + 1, end.saturating_sub(1), end, end + 1, u64::MAX]);
        let tail = rules.split_tail_at(&v, mid);
        let pushed = rules.push(&v, s);
        assert_eq!(dock.push(&v, s), pushed, "{v:?} push {s:?}");
        assert_eq!(dock.insert(&v, index, s), rules.insert(&v, index, s), "{v:?} insert {index} {s:?}");
        assert_eq!(dock.append(&v, &tail.segments), rules.append(&v, &tail.segments), "{v:?} append {tail:?}");
        assert_eq!(dock.split_at(&v, mid), rules.split_at(&v, mid), "{v:?} split_at {mid}");
        assert_eq!(dock.split_tail_at(&v, mid), tail, "{v:?} split_tail_at {mid}");
        assert_eq!(dock.fault(), None);
        joined += u64::from(pushed.as_ref().is_ok_and(|after| after.len() == v.len()));
        joined_to_longest +=
            u64::from(pushed.as_ref().is_ok_and(|after| after.len() == v.len() && total(after) == LONGEST_VECTOR));
        v = pushed.unwrap_or(if random.once_in(8) { tail.segments } else { v });
    }
    assert!(joined > 1000 && joined_to_longest > 100, "{joined} pushes joined, {joined_to_longest} to the longest");
}

fn refused(number: u8) -> Reply {
    Reply { number: number.into(), count: 0, value: [0; 4] }
}

/// `is_aligned` wherever the data lies, and its refusals in document 01's order.
#[test]
fn is_aligned_agrees_with_the_rules() {
    let mut random = Random::new(11, 2);
    let answers = |aligned: bool| Reply { number: NO_NUMBER, count: 1, value: [u64::from(aligned), 0, 0, 0] };
    for _ in 0..20_000 {
        let (mem, req) = (random.pick(&[1, 2, 512, 65_536]), random.pick(&[1, 2, 512, 65_536]));
        let align = random.pick(&[[mem, req, 1, 1], [mem, req, 1, 1], [mem, req, 512, 3], [mem, 131_072, 1, 1]]);
        let address = random.below(9) * random.pick(&[1, 2, 512, 65_536]);
        let last = u64::MAX - LONG;
        let address = random.pick(&[address, address, last, last - 1, last + 1]);
        let s = Segment { start: random.below(4) * mem, length: random.below(4) * req };
        let other = extreme(&mut random);
        let s = random.pick(&[s, s, other]);
        let settings = Alignments::new(align[0], align[1], align[2], align[3]);
        let expected = match (settings == Alignments::new(mem, req, 1, 1), address.checked_add(LONG)) {
            (false, _) => refused(UNFIT),
            (_, None) => refused(BUFFER),
            _ if vector(&[s], LONG) != 0 => refused(SEGMENT),
            _ => answers(is_aligned(&[s], address, &settings)),
        };
        let reply = vector_is_aligned(&row(&[s], s.length), align, [address, LONG]);
        assert_eq!(reply, expected, "{s:?} {align:?} data at {address}");
    }
}

/// Whether words tell of a right vector of data of 8 bytes, whatever stands past its last segment.
fn is_vector(row: &Row) -> bool {
    let segments: Vec<Segment> = row[2..].chunks(2).map(|w| Segment { start: w[0], length: w[1] }).collect();
    let used = segments.get(..row[0].min(17) as usize);
    used.is_some_and(|used| vector(used, 8) == 0 && total(used) == row[1])
}

/// Words that are no vector, at random: a count past 16, another total, an empty segment, one outside the data.
fn no_vector(random: &mut Random) -> Row {
    let count = random.pick(&[0, 1, 2, 15, 16, 16, 17, u64::MAX]);
    let mut row: Row = std::array::from_fn(|_| random.pick(&[1, 1, 2, 3, 3]));
    (row[0], row[1]) = (count, row[3..].iter().step_by(2).take(count.min(16) as usize).sum());
    if count <= 16 {
        row[1 + random.below(1 + 2 * count) as usize] = random.pick(&[0, 1, 5, 8, 9, 1 << 32, u64::MAX]);
    }
    if is_vector(&row) {
        no_vector(random)
    } else {
        row
    }
}

/// A call that needs a vector refuses them, and leaves words and bytes.
#[test]
fn words_that_are_no_vector_are_refused() {
    let mut random = Random::new(11, 3);
    let one = Segment { start: 0, length: 1 };
    let right = row(&[one], 1);
    for _ in 0..20_000 {
        let wrong = no_vector(&mut random);
        let (mut v, mut tail, mut kept) = (wrong, [5; 34], right);
        let (mut data, mut slice) = ([7; 8], [9; 2]);
        let splits = [vector_split_at(&mut v, &mut tail, 1, 8), vector_split_tail_at(&mut v, 1, 8)];
        let answers = [
            vector_push(&mut v, one, 8),
            vector_insert(&mut v, 0, one, 8),
            vector_append(&mut v, &right, 8),
            vector_append(&mut kept, &wrong, 8),
            vector_copy_into_slice(&wrong, &data, &mut slice),
            vector_copy_from_slice(&wrong, &mut data, &slice),
            vector_fill(&wrong, &mut data, 1),
        ];
        assert_eq!(answers, [SEGMENT; 7], "{wrong:?}");
        assert_eq!(splits, [refused(SEGMENT); 2], "{wrong:?}");
        assert_eq!((v, tail, kept, data, slice), (wrong, [5; 34], right, [7; 8], [9; 2]), "{wrong:?}");
    }
}

/// Ranges that end at 2^64 - 1, and empty ones there.
#[test]
fn blockers_agree_with_the_rules_near_the_end() {
    for list in 0..2000 {
        let mut random = Random::new(11, list);
        let (mut rules, mut dock) = (NotedBlockers::default(), DockBlockers::default());
        let mut entered = [false; SLOTS];
        for _ in 0..40 {
            let slot = random.below(SLOTS as u64) as usize;
            let (near, length) = (random.below(6), random.below(6));
            let start = random.pick(&[0, 1, u64::MAX - near]);
            let range = start..random.pick(&[start, start.saturating_add(length), u64::MAX]);
            let strong = random.once_in(2);
            match entered[slot] {
                true => (rules.leave(slot), dock.leave(slot)),
                false => (rules.enter(slot, range.clone(), strong), dock.enter(slot, range.clone(), strong)),
            };
            entered[slot] = !entered[slot];
            let waiting = |b: &dyn Blockers| (0..SLOTS).filter(|s| b.waits(*s)).collect::<Vec<_>>();
            assert_eq!(waiting(&rules), waiting(&dock), "list {list}, slot {slot}, {range:?}");
            assert_eq!(dock.fault(), None);
        }
    }
}
