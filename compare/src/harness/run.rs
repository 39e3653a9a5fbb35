//! A run of many cases.

use super::checker::Checker;
use super::difference::Difference;
use super::histogram::Histogram;
use crate::calls::Engine;
use crate::generate::random::Random;

/// Runs of at least this many cases must give every refusal.
pub const FULL_RUN: u64 = 10_000;

/// The case that failed, none for a named example, and its difference.
pub struct Failure {
    pub case: Option<u64>,
    pub difference: Box<Difference>,
}

/// Puts the named examples and then so many generated cases through the engine.
pub fn run(engine: &dyn Engine, cases: u64, seed: u64) -> Result<Histogram, Failure> {
    run_named(engine, seed).map_err(|difference| Failure { case: None, difference })?;
    run_generated(engine, cases, seed)
}

/// Puts the examples of the documents through the engine.
pub fn run_named(engine: &dyn Engine, seed: u64) -> Result<Histogram, Box<Difference>> {
    let mut checker = Checker::new(engine);
    checker.named(&mut Random::new(seed))?;
    Ok(checker.histogram)
}

/// Puts so many generated cases through the engine.
pub fn run_generated(engine: &dyn Engine, cases: u64, seed: u64) -> Result<Histogram, Failure> {
    let mut checker = Checker::new(engine);
    for case in 0..cases {
        let mut random = Random::of_case(seed, case);
        let failed = |difference| Failure { case: Some(case), difference };
        checker.case(&mut random).map_err(failed)?;
    }
    Ok(checker.histogram)
}
