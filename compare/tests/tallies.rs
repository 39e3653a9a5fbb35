//! The candidates and tallies that are generated come to every case that marking tells apart.

use compare::generate::random::Random;
use compare::generate::tallies::{candidate, counts};
use compare::reference::tally::COUNTS;

const FULL: u32 = u32::MAX;

/// Candidates with the counts of their tallies.
fn generated(length: usize) -> impl Iterator<Item = (usize, Vec<u32>)> {
    (0..10_000).map(move |case| {
        let mut random = Random::of_case(8, case);
        let candidate = candidate(&mut random);
        (candidate, counts(&mut random, candidate, length))
    })
}

#[test]
fn every_candidate_and_those_beyond() {
    let drawn: Vec<usize> = generated(0).map(|(candidate, _)| candidate).collect();
    let beyond = [16, 17, 255, 256, 261, 65_536, 1 << 32, (1 << 32) + 5, usize::MAX];
    for wanted in (0..16).chain(beyond) {
        assert!(drawn.contains(&wanted), "{wanted}");
    }
}

/// The candidate's counts and all others of the tally.
fn parted(candidate: usize, counts: &[u32]) -> (Vec<u32>, Vec<u32>) {
    let own = 3 * candidate..3 * candidate + 3;
    let others = [&counts[..own.start], &counts[own.end..COUNTS]].concat();
    (counts[own].to_vec(), others)
}

#[test]
fn full_counts_of_the_candidate_of_others_and_of_none() {
    let drawn: Vec<_> = generated(COUNTS)
        .filter(|(candidate, _)| *candidate < 16)
        .map(|(candidate, counts)| parted(candidate, &counts))
        .collect();
    for way in 0..3 {
        let singly = |own: &[u32]| (0..3).all(|other| (own[other] == FULL) == (other == way));
        assert!(drawn.iter().any(|(own, others)| singly(own) && !others.contains(&FULL)));
        assert!(drawn.iter().any(|(own, others)| singly(own) && others.contains(&FULL)));
        let last = |own: &[u32]| own[way] == FULL - 1 && !own.contains(&FULL);
        assert!(drawn.iter().any(|(own, others)| last(own) && others.contains(&FULL)));
    }
    let empty = |own: &[u32]| own.iter().all(|&count| count == 0);
    assert!(drawn.iter().any(|(own, others)| empty(own) && empty(others)));
    assert!(drawn.iter().any(|(own, others)| empty(own) && others.iter().all(|&n| n == FULL)));
}

#[test]
fn full_counts_with_no_such_candidate() {
    let mut beyond = generated(COUNTS).filter(|(candidate, _)| *candidate > 15);
    assert!(beyond.any(|(_, counts)| counts.iter().all(|&count| count == FULL)));
}

#[test]
fn full_counts_behind_the_tally_only() {
    for length in [COUNTS + 1, COUNTS + 40] {
        let behind =
            |counts: &[u32]| !counts[..COUNTS].contains(&FULL) && counts[COUNTS..].contains(&FULL);
        assert!(generated(length).any(|(_, counts)| behind(&counts)));
    }
}
