//! Marking: what it refuses, and what it does to the tally.

use super::facts::Facts;
use super::making;
use super::tally::{self, Step, Tally};
use crate::refusal::{Answer, Refusal};

/// The facts by which a sheet is marked for this candidate with this tally and slices of these
/// lengths: refusals 26 and 25, then those of sheet and slices.
pub fn allowed<'f>(
    tally: &Tally,
    candidate: usize,
    facts: &'f Answer<Facts>,
    form_length: usize,
    relations_length: usize,
) -> Answer<&'f Facts> {
    tally::allowed(tally, candidate)?;
    allowed_by_sheet(facts, form_length, relations_length)
}

/// What sheet and slices say, whatever candidate and tally do: refusals 1 to 17, then 19.
pub fn allowed_by_sheet(
    facts: &Answer<Facts>,
    form_length: usize,
    relations_length: usize,
) -> Answer<&Facts> {
    let facts = making::allowed(facts, form_length)?;
    if relations_length < facts.sheet.relations_need() {
        return Err(Refusal(19));
    }
    Ok(facts)
}

/// The step that counts a marking answered so: 1 to 16 are turned away, other refusals are not
/// counted.
pub fn counted_as(answer: Answer<&Facts>) -> Option<Step> {
    match answer {
        Ok(facts) if facts.accepted() => Some(Step::Accept),
        Ok(_) => Some(Step::Decline),
        Err(Refusal(1..=16)) => Some(Step::TurnAway),
        Err(_) => None,
    }
}

/// The tally after a marking of this candidate that is answered so.
pub fn tally_after(tally: Tally, candidate: usize, answer: Answer<&Facts>) -> Tally {
    let mut moved = tally;
    if let Some(step) = counted_as(answer) {
        moved[candidate][step as usize] += 1;
    }
    moved
}

/// Marking as the C interface has it, with a tally in the first 48 counts of a lent slice. Refusal
/// 19 of a slice that is too short for them comes before all others; later counts are kept.
pub fn marked<'f>(
    tally: &mut [u32],
    candidate: usize,
    facts: &'f Answer<Facts>,
    form_length: usize,
    relations_length: usize,
) -> Answer<&'f Facts> {
    let (counts, _) = tally.as_chunks_mut::<3>();
    let tally = counts.first_chunk_mut::<16>().ok_or(Refusal(19))?;
    let answer = allowed(tally, candidate, facts, form_length, relations_length);
    *tally = tally_after(*tally, candidate, answer);
    answer
}
