//! Marking a sheet, and the tally.

use super::automaton::Automaton;
use super::evaluation::evaluate;
use super::making;
use super::sheet::Sheet;
use crate::refusal::{Answer, Refusal};

const CANDIDATES: usize = 16;

pub struct Mark {
    pub accepted: bool,
    pub mask: u8,
}

/// The accepted, declined and turned away of a candidate in a lent tally, if none of them is full.
fn counts(tally: &mut [u32], candidate: usize) -> Answer<&mut [u32; 3]> {
    let tally = tally.as_chunks_mut().0.get_mut(..CANDIDATES).ok_or(Refusal(19))?;
    let counts = tally.get_mut(candidate).ok_or(Refusal(26))?;
    if counts.contains(&u32::MAX) {
        return Err(Refusal(25));
    }
    Ok(counts)
}

pub fn mark(
    bytes: &[u8],
    form: &mut [u8],
    relations: &mut [u64],
    candidate: usize,
    tally: &mut [u32],
) -> Answer<Mark> {
    let [accepted, declined, turned_away] = counts(tally, candidate)?;
    let sheet = Sheet::read(bytes).inspect_err(|_| *turned_away += 1)?;
    if form.len() < sheet.form_need() {
        return Err(Refusal(17));
    }
    if relations.len() < sheet.most_rules {
        return Err(Refusal(19));
    }
    let made = making::form(&sheet);
    made.write(form);
    let automaton = Automaton::grouped(sheet.finals, sheet.transitions);
    let mask = evaluate(&automaton, &made, relations);
    let passes = mask & automaton.finals != 0;
    let count = if passes { accepted } else { declined };
    *count += 1;
    Ok(Mark { accepted: passes, mask })
}
