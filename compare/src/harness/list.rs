//! A list of markings from the zero tally, and what document 02 says of every such list.

use crate::reference::facts::Facts;
use crate::reference::tally::{self, Tally};
use crate::reference::totals::Totals;
use crate::refusal::Answer;

/// A list of markings so far.
pub struct List {
    /// The tally as the last marking left it.
    tally: Tally,
    /// The calls of each candidate that were answered accepted, declined and turned away.
    answers: [[u64; 3]; 16],
    /// The calls of each candidate that were answered other than by 17, 19 or 25.
    counted: [u64; 16],
    /// Document 01's tally over the same list, but for the calls that 26 refuses.
    totals: Totals,
}

/// A marking as the engine answered it.
pub struct Answered<'f> {
    pub candidate: usize,
    /// What sheet and slices say, whatever candidate and tally do.
    pub by_sheet: Answer<&'f Facts>,
    pub code: u8,
    pub verdict: u8,
    /// The tally after the marking.
    pub tally: Tally,
}

impl List {
    /// The empty list.
    pub fn new() -> List {
        List::after(tally::ZERO)
    }

    /// A list with so many answers, where no sum over the candidates is 2^32 - 1 or more.
    pub fn after(tally: Tally) -> List {
        let answers = tally.map(|counts| counts.map(u64::from));
        let counted = answers.map(|ways| ways.iter().sum());
        let totals = Totals { counts: sums(&tally).map(|sum| sum as u32) };
        List { tally, answers, counted, totals }
    }

    pub fn tally(&self) -> &Tally {
        &self.tally
    }

    pub fn totals(&self) -> Totals {
        self.totals
    }

    /// Adds a marking; the error tells which law the list then breaks.
    pub fn add(&mut self, answered: &Answered) -> Result<(), String> {
        let before = std::mem::replace(&mut self.tally, answered.tally);
        if answered.candidate < 16 {
            self.count(answered);
        }
        self.check_others(&before, answered.candidate)?;
        self.check_counts()?;
        self.check_sums()?;
        self.check_totals()
    }

    /// Counts a marking that 26 does not refuse.
    fn count(&mut self, answered: &Answered) {
        let ways = &mut self.answers[answered.candidate];
        match (answered.code, answered.verdict) {
            (0, 1) => ways[0] += 1,
            (0, _) => ways[1] += 1,
            (1..=16, _) => ways[2] += 1,
            _ => {}
        }
        if ![17, 19, 25].contains(&answered.code) {
            self.counted[answered.candidate] += 1;
        }
        self.totals = self.totals.after(answered.by_sheet);
    }

    /// A marking moves its own candidate's counts only.
    fn check_others(&self, before: &Tally, marked: usize) -> Result<(), String> {
        for candidate in (0..16).filter(|&candidate| candidate != marked) {
            if self.tally[candidate] != before[candidate] {
                return Err(format!(
                    "a marking of {marked} took the counts of {candidate} from {:?} to {:?}",
                    before[candidate], self.tally[candidate]
                ));
            }
        }
        Ok(())
    }

    /// Each of a candidate's counts is the number of that candidate's calls answered its way.
    fn check_counts(&self) -> Result<(), String> {
        for (candidate, (counts, ways)) in self.tally.iter().zip(&self.answers).enumerate() {
            if counts.map(u64::from) != *ways {
                return Err(format!("the answers of {candidate} are {ways:?}, not {counts:?}"));
            }
        }
        Ok(())
    }

    /// A candidate's counts sum to that candidate's calls not answered by 17, 19 or 25.
    fn check_sums(&self) -> Result<(), String> {
        for (candidate, (counts, calls)) in self.tally.iter().zip(&self.counted).enumerate() {
            let sum: u64 = counts.map(u64::from).iter().sum();
            if sum != *calls {
                return Err(format!("the counts of {candidate} sum to {sum}, not {calls}"));
            }
        }
        Ok(())
    }

    /// Where no old total is full, the old totals are the sums over all sixteen.
    fn check_totals(&self) -> Result<(), String> {
        let (totals, sums) = (self.totals.counts.map(u64::from), sums(&self.tally));
        if !self.totals.are_full() && totals != sums {
            return Err(format!("the old totals are {totals:?}, but the sums are {sums:?}"));
        }
        Ok(())
    }
}

impl Default for List {
    fn default() -> List {
        List::new()
    }
}

/// Accepted, declined and turned away, each over all sixteen candidates.
fn sums(tally: &Tally) -> [u64; 3] {
    [0, 1, 2].map(|way| tally.iter().map(|counts| u64::from(counts[way])).sum())
}
