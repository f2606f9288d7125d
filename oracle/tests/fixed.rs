//! The committed fixed list is the one that the seed gives.

use oracle::fixed::fixed;

/// The seed of the committed list.
const SEED: u64 = 1;

#[test]
fn the_fixed_list_is_as_committed() {
    let made = fixed(SEED);
    assert!(made.script == include_str!("../../crates/imago_list/stdin"), "fixed --seed {SEED} gives another script");
    assert!(made.trace == include_str!("../../crates/imago_list/stdout"), "fixed --seed {SEED} gives another trace");
}

#[test]
fn every_refusal_of_scripts_is_reached() {
    let counts = fixed(SEED).coverage.counts;
    let missing: Vec<u64> = (201..=209).filter(|n| !counts.contains_key(&format!("refused {n}"))).collect();
    assert_eq!(missing, Vec::<u64>::new());
}

#[test]
fn every_way_of_joining_is_reached() {
    let counts = fixed(SEED).coverage.counts;
    for name in [
        "joined segments, direct",
        "joined segments, padded",
        "17 segments, joined to 16 or fewer",
        "17 segments refused",
        "an empty segment that touches, refused",
    ] {
        assert!(counts.contains_key(name), "the fixed list does not reach: {name}");
    }
}
