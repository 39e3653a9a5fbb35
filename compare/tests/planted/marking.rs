//! The faults of marking.

use crate::engine::{Fault, Planted, bodies};
use crate::sums::{Asked, marked_by};
use compare::calls::{Engine, FixedCalls};
use compare::idiomatic::Idiomatic;
use compare::reference::head::{LONGEST_FORM, end, word};
use compare::reference::tally::COUNTS;

/// A marking with all that it is given.
pub struct Call<'a> {
    pub sheet: &'a [u8],
    pub form: &'a mut [u8],
    pub relations: &'a mut [u64],
    pub candidate: usize,
    pub tally: &'a mut [u32],
    pub verdict: &'a mut u8,
    pub mask: &'a mut u8,
}

impl Call<'_> {
    /// Marks the sheet, read so and with this tally, as is right.
    fn put(&mut self, sheet: &[u8], tally: &mut [u32]) -> u8 {
        let Call { form, relations, candidate, verdict, mask, .. } = self;
        Idiomatic.mark(sheet, form, relations, *candidate, tally, verdict, mask)
    }

    /// Where the candidate's counts lie, if the tally has such a candidate.
    fn own(&mut self) -> Option<&mut [u32; 3]> {
        self.tally.get_mut(..COUNTS)?.as_chunks_mut().0.get_mut(self.candidate)
    }

    /// Sets some of the candidate's counts.
    fn set(&mut self, ways: &[usize], value: u32) {
        if let Some(counts) = self.own() {
            ways.iter().for_each(|&way| counts[way] = value);
        }
    }

    /// The refusal that the sheet gets, whatever the slices are; 0 where none.
    fn of_sheet(&self) -> u8 {
        Idiomatic.make_form(self.sheet, &mut [0; LONGEST_FORM], &mut 0)
    }

    /// The count that the marking would move in an empty tally.
    fn way(&self) -> Option<usize> {
        let (mut form, mut relations) = (self.form.to_vec(), self.relations.to_vec());
        let mut tally = [0; COUNTS];
        Idiomatic.mark(self.sheet, &mut form, &mut relations, 0, &mut tally, &mut 0, &mut 0);
        tally.iter().position(|&count| count == 1)
    }
}

impl Planted {
    pub fn marking(&self, mut call: Call) -> u8 {
        if let Fault::WrongSum(sum, asked @ (Asked::MarkingBytes | Asked::MarkingNumbers)) =
            self.fault
        {
            return marked_by(sum, asked, call);
        }
        if let Some(code) = self.refused_wrongly(&mut call) {
            return code;
        }
        call.candidate = self.candidate_as_read(call.candidate);
        let before = call.tally.to_vec();
        let passed_over = self.passed_over(&mut call);
        call.set(&passed_over, 0);
        let code = self.marked(&mut call);
        call.set(&passed_over, u32::MAX);
        self.spoil_tally(code, &before, &mut call);
        code
    }

    /// The refusal of a check that looks at too much or comes too soon.
    fn refused_wrongly(&self, call: &mut Call) -> Option<u8> {
        let (long, named) = (call.tally.len() >= COUNTS, call.candidate < 16);
        let full = call.own().is_some_and(|counts| counts.contains(&u32::MAX));
        let sheet = || Some(call.of_sheet()).filter(|&code| code != 0);
        match self.fault {
            Fault::RefuseAll => {
                call.own().into_iter().for_each(|counts| step(&mut counts[2]));
                Some(1)
            }
            Fault::FullLooksAtAll if long && named => {
                call.tally[..COUNTS].contains(&u32::MAX).then_some(25)
            }
            Fault::FullAfterSheet if full => sheet(),
            Fault::CandidateAfterSheet if long && !named => sheet(),
            Fault::ShortTallyAfterCandidate if !long && !named => Some(26),
            _ => None,
        }
    }

    fn candidate_as_read(&self, candidate: usize) -> usize {
        match self.fault {
            Fault::CandidateModulo16 => candidate % 16,
            Fault::CandidateModulo256 => candidate % 256,
            Fault::CandidateOfFourBytes => candidate as u32 as usize,
            _ => candidate,
        }
    }

    /// The candidate's full counts for which this engine does not refuse.
    fn passed_over(&self, call: &mut Call) -> Vec<usize> {
        let looked_at = match self.fault {
            Fault::FullLooksAtAcceptedOnly => Some(0),
            Fault::FullLooksAtMovedOnly => call.way(),
            _ => return Vec::new(),
        };
        let counts = call.own().copied().unwrap_or_default();
        (0..3).filter(|&way| counts[way] == u32::MAX && looked_at != Some(way)).collect()
    }

    /// Marks with the form and the relations that this engine's two calls leave.
    fn marked(&self, call: &mut Call) -> u8 {
        let (held, kept) = (call.form.to_vec(), call.relations.to_vec());
        let sheet = self.as_read(call.sheet);
        let mut tally = call.tally.to_vec();
        if self.has(Fault::TallyOf47Taken) && tally.len() == COUNTS - 1 {
            tally.push(0);
        }
        let code = call.put(&sheet, &mut tally);
        call.tally.copy_from_slice(&tally[..call.tally.len()]);
        if code == 17 && self.asks_for_numbers_first(&sheet, call.relations.len()) {
            return 19;
        }
        let fault = Fault::AlphabetNotInMarkingNeed;
        if code == 17 && self.asks_for_no_alphabet(fault, &sheet, call.form.len()) {
            return 0;
        }
        if code == 0 {
            let form = &mut *call.form;
            let mut written = end(form) + 12 * usize::from(word(form, 0));
            self.spoil_form(&held, form, &mut written);
            self.spoil_wide_form(call.sheet, form, &mut written);
            let [alphabet, _, automaton] = bodies(&sheet);
            Idiomatic.evaluate(alphabet, automaton, &form[..written], call.relations, &mut 0);
        }
        if code == 0 && self.misses_run(call.sheet) {
            (*call.mask, *call.verdict) = (0, 0);
        }
        if code == 0 && self.has(Fault::RelationsForgotten) {
            call.relations.copy_from_slice(&kept);
        }
        code
    }

    /// Spoils the verdict and the tally.
    fn spoil_tally(&self, code: u8, before: &[u32], call: &mut Call) {
        let behind = 3 * (call.candidate % 16) + 3;
        match (self.fault, code) {
            (Fault::DeclineAll, 0) => {
                *call.verdict = 0;
                call.tally.copy_from_slice(before);
                call.tally[behind - 2] += 1;
            }
            (Fault::TallyOnce, _) if before.iter().take(COUNTS).any(|&count| count != 0) => {
                call.tally.copy_from_slice(before);
            }
            (Fault::TurnedAwayNotCounted, 1..=16) => call.tally.copy_from_slice(before),
            (Fault::ShortCounted, 17 | 19) if before.len() >= COUNTS => {
                call.tally[behind - 1] += 1;
            }
            (Fault::NoCandidateCounted, 26) => step(&mut call.tally[COUNTS - 1]),
            (Fault::NeighbourMoved, 0) => step(&mut call.tally[behind % COUNTS]),
            (Fault::CountsPastWritten, 0) => call.tally[COUNTS..].iter_mut().take(1).for_each(step),
            _ => {}
        }
    }
}

/// Moves a count, a full one to 0.
fn step(count: &mut u32) {
    *count = count.wrapping_add(1);
}
