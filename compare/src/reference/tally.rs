//! The tally: accepted, declined and turned away for each of sixteen candidates.

use crate::refusal::{Answer, Refusal};

/// The three counts of candidates 0 to 15.
pub type Tally = [[u32; 3]; 16];

/// The tally that every list of markings starts from.
pub const ZERO: Tally = [[0; 3]; 16];

/// So many counts a tally has.
pub const COUNTS: usize = 48;

/// A step of the tally, which moves the count at its place.
#[derive(Clone, Copy)]
pub enum Step {
    Accept,
    Decline,
    TurnAway,
}

/// Refusals 26 and 25: the candidate's number is over 15, or one of that candidate's counts is
/// 2^32 - 1.
pub fn allowed(tally: &Tally, candidate: usize) -> Answer<()> {
    if candidate > 15 {
        return Err(Refusal(26));
    }
    if tally[candidate].contains(&u32::MAX) {
        return Err(Refusal(25));
    }
    Ok(())
}

/// The tally after a step of a candidate.
pub fn step(tally: Tally, candidate: usize, step: Step) -> Answer<Tally> {
    allowed(&tally, candidate)?;
    let mut moved = tally;
    moved[candidate][step as usize] += 1;
    Ok(moved)
}
