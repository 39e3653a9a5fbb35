//! Marking under comparison: the form and the relations must be those of the two calls it stands
//! for.

use super::checker::Checker;
use super::difference::{Checked, Difference};
use super::lending::{Lending, Lent, enough};
use super::list::Answered;
use crate::generate::random::Random;
use crate::hex::hex;
use crate::reference::calls;
use crate::reference::facts::Facts;
use crate::reference::marking;
use crate::reference::tally::COUNTS;
use crate::refusal::{Answer, Refusal};

/// A marking, with what the reference knows of its sheet.
#[derive(Clone, Copy)]
pub struct Marking<'a> {
    pub candidate: usize,
    pub sheet: &'a [u8],
    pub facts: &'a Answer<Facts>,
}

impl Marking<'_> {
    fn inputs(self) -> Vec<(&'static str, String)> {
        vec![("candidate", self.candidate.to_string()), ("sheet", hex(self.sheet))]
    }
}

impl Checker<'_> {
    /// Makes a marking as the next in the list that started from zero, with slices of so many
    /// bytes and numbers; hands back the code and what was lent as the call left it.
    pub fn mark_next(
        &mut self,
        random: &mut Random,
        call: Marking,
        [bytes, numbers]: [usize; 2],
    ) -> Checked<(u8, Lent)> {
        let length = enough(random, COUNTS);
        let tally = Lending::holding(random, length, self.list.tally().as_flattened());
        let lent = Lent { tally, ..Lent::new(random, bytes, numbers) };
        let (code, found) = self.mark(call, &lent)?;
        let mut tally = *self.list.tally();
        tally.as_flattened_mut().copy_from_slice(&found.tally.slice()[..COUNTS]);
        let answered = Answered {
            candidate: call.candidate,
            by_sheet: marking::allowed_by_sheet(call.facts, bytes, numbers),
            code,
            verdict: found.verdict,
            tally,
        };
        let added = self.list.add(&answered);
        added.map_err(|finding| Difference::told("mark", call.inputs(), &lent, finding))?;
        Ok((code, found))
    }

    /// Makes a marking; hands back the code and what was lent as the call left it.
    pub fn mark(&mut self, call: Marking, lent: &Lent) -> Checked<(u8, Lent)> {
        let mut found = lent.clone();
        let code = self.engine.mark(
            call.sheet,
            found.bytes.slice_mut(),
            found.numbers.slice_mut(),
            call.candidate,
            found.tally.slice_mut(),
            &mut found.verdict,
            &mut found.byte,
        );
        let (expected_code, expected) = self.expected_marking(call, lent);
        self.histogram.add(expected_code);
        let inputs = || call.inputs();
        Difference::check("mark", inputs, lent, (expected_code, &expected), (code, &found))?;
        Ok((code, found))
    }

    fn expected_marking(&self, call: Marking, lent: &Lent) -> (u8, Lent) {
        let (bytes, numbers) = (lent.bytes.slice().len(), lent.numbers.slice().len());
        let mut expected = lent.clone();
        let tally = expected.tally.slice_mut();
        match marking::marked(tally, call.candidate, call.facts, bytes, numbers) {
            Err(Refusal(number)) => (number, expected),
            Ok(facts) => {
                self.write_marks(call.sheet, facts, &mut expected);
                (0, expected)
            }
        }
    }

    /// Leaves the form as the engine's form making leaves it and the relations as the reference's
    /// evaluation does.
    fn write_marks(&self, sheet: &[u8], facts: &Facts, lent: &mut Lent) {
        let mut written = 0;
        self.engine.make_form(sheet, lent.bytes.slice_mut(), &mut written);
        let form = lent.bytes.slice().get(..written).unwrap_or_default();
        let (alphabet, automaton) = (&facts.sheet.alphabet_body, &facts.sheet.automaton_body);
        // A form that is not valid leaves the relations; form making's own check tells of it.
        let _ = calls::evaluate(alphabet, automaton, form, lent.numbers.slice_mut());
        lent.verdict = facts.accepted().into();
        lent.byte = facts.mask;
    }
}
