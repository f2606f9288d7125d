//! A run finds no difference, and every planted fault.

use oracle::document_parts::{DocumentPlanner, DocumentVectors};
use oracle::document_side::{DocumentSide, NotedBlockers, RulesSide};
use oracle::imago_parts::{ImagoBlockers, ImagoPlanner, ImagoVectors};
use oracle::imago_side::ImagoSide;
use oracle::lists::MEMORY;
use oracle::parts::Found;
use oracle::plant::{Fault, Planted, FAULTS};
use oracle::plant_parts::{OneChunkLess, WrongBlockers, WrongVectors, BLOCKER_FAULTS, VECTOR_FAULTS};
use oracle::runner::{run_lists, run_parts, vector_data, Run};
use oracle::side::{Blockers, Planner, Vectors};
use oracle::store::Content;
use std::ops::Range;

const RUN: Run = Run::of(400, 11);

#[test]
fn sides_agree() {
    let (_, found) = run_lists(RUN, MEMORY, ImagoSide::new, DocumentSide::new);
    assert!(found.is_none(), "{:?}", found.map(|f| f.difference));
}

#[test]
fn every_fault_is_seen() {
    for (name, fault) in FAULTS {
        let planted = |content: &Content| Planted::new(DocumentSide::new(content), Some(fault));
        let (_, found) = run_lists(RUN, MEMORY, ImagoSide::new, planted);
        assert!(found.is_some(), "{name} is not seen");
    }
}

/// With the same fault on both sides only the plain byte store can see it. It knows neither where pieces lie nor who
/// waits.
#[test]
fn the_plain_byte_store_sees_faults() {
    let unseen = [Fault::ShiftedPiece, Fault::LongWait, Fault::JoinedBegin];
    for (name, fault) in FAULTS.into_iter().filter(|(_, fault)| !unseen.contains(fault)) {
        let planted = |content: &Content| Planted::new(DocumentSide::new(content), Some(fault));
        let (_, found) = run_lists(RUN, MEMORY, planted, planted);
        assert!(found.is_some(), "{name} is not seen");
    }
}

fn parts<B: Blockers>(blockers: impl Fn() -> B, vectors: &mut impl Vectors, planner: &mut impl Planner) -> Found {
    let imago = &mut ImagoVectors::new(&vector_data());
    run_parts(RUN, (ImagoBlockers::default, blockers), (imago, vectors), (&mut ImagoPlanner, planner)).1
}

#[test]
fn parts_agree() {
    let found = parts(NotedBlockers::default, &mut DocumentVectors::new(&vector_data()), &mut DocumentPlanner);
    assert_eq!(found, None);
}

/// Blockers that do not wait for those that wait themselves.
#[derive(Default)]
struct Impatient(NotedBlockers);

impl Blockers for Impatient {
    fn enter(&mut self, slot: usize, range: Range<u64>, strong: bool) {
        self.0.enter(slot, range, strong);
    }

    fn waits(&self, slot: usize) -> bool {
        self.0.noted(slot).any(|(other, _)| !self.0.waits(other))
    }

    fn leave(&mut self, slot: usize) {
        self.0.leave(slot);
    }
}

#[test]
fn a_dock_that_does_not_wait_for_those_that_wait_is_seen() {
    let (_, found) = run_lists(RUN, MEMORY, ImagoSide::new, RulesSide::<Impatient>::new);
    assert!(found.is_some());
}

#[test]
fn a_dock_over_imagos_blockers_agrees() {
    let (_, found) = run_lists(RUN, MEMORY, ImagoSide::new, RulesSide::<ImagoBlockers>::new);
    assert!(found.is_none(), "{:?}", found.map(|f| f.difference));
}

#[test]
fn faults_of_blockers_are_seen() {
    let vectors = &mut DocumentVectors::new(&vector_data());
    assert!(parts(Impatient::default, vectors, &mut DocumentPlanner).is_some());
    for fault in BLOCKER_FAULTS {
        let vectors = &mut DocumentVectors::new(&vector_data());
        let wrong = || WrongBlockers(NotedBlockers::default(), fault);
        assert!(parts(wrong, vectors, &mut DocumentPlanner).is_some(), "{fault:?} is not seen");
    }
}

#[test]
fn faults_of_vectors_and_planner_are_seen() {
    for fault in VECTOR_FAULTS {
        let vectors = &mut WrongVectors(DocumentVectors::new(&vector_data()), fault);
        assert!(parts(NotedBlockers::default, vectors, &mut DocumentPlanner).is_some(), "{fault} is not seen");
    }
    let vectors = &mut DocumentVectors::new(&vector_data());
    assert!(parts(NotedBlockers::default, vectors, &mut OneChunkLess(DocumentPlanner)).is_some());
}
