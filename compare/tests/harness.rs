//! The harness with a second implementation in the engine's place.

use compare::harness::run::{run, run_named};
use compare::idiomatic::Idiomatic;

fn histogram(cases: u64, seed: u64) -> (String, Vec<u8>) {
    let histogram = run(&Idiomatic, cases, seed)
        .unwrap_or_else(|failure| panic!("case {:?}\n{}", failure.case, failure.difference));
    (histogram.to_string(), histogram.missing())
}

#[test]
fn two_implementations_agree() {
    let (told, missing) = histogram(3000, 1);
    assert!(missing.is_empty(), "{told}");
}

#[test]
fn a_seed_gives_the_same_cases() {
    assert_eq!(histogram(100, 9), histogram(100, 9));
    assert_ne!(histogram(100, 9), histogram(100, 10));
}

#[test]
fn the_named_examples_alone_give_every_refusal() {
    let histogram = run_named(&Idiomatic, 1).unwrap_or_else(|difference| panic!("{difference}"));
    assert!(histogram.missing().is_empty(), "{histogram}");
}
