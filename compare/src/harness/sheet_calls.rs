//! A sheet put through the calls.

use super::checker::Checker;
use super::difference::{Checked, Difference};
use super::lending::{Lending, Lent, around, enough};
use super::marking::Marking;
use crate::generate::form_inputs::automaton_beside;
use crate::generate::random::Random;
use crate::generate::{form_damage, other_alphabets, tallies};
use crate::hex::hex;
use crate::reference::facts::Facts;
use crate::reference::head::LONGEST_FORM;
use crate::reference::tally::COUNTS;
use crate::refusal::Answer;

impl Checker<'_> {
    pub fn sheet(&mut self, random: &mut Random, sheet: &[u8]) -> Checked<()> {
        let facts = Facts::of(sheet);
        let asked = self.room(random, sheet)?;
        let length = match &facts {
            Ok(known) => around(random, known.sheet.form_need()),
            // Too short a slice must not be told before 1 to 16.
            Err(_) => *random.pick(&[0, 3, 100, LONGEST_FORM]),
        };
        self.make_form(sheet, &facts, &Lent::new(random, length, 0))?;
        let mut form = None;
        if let (Ok(known), Some(asked)) = (&facts, asked) {
            let made = self.form_of(random, sheet, &facts, known)?;
            self.follow(random, known, &made)?;
            self.lent_as_asked(random, sheet, &facts, &made, asked)?;
            form = Some(made);
        }
        self.markings(random, sheet, &facts)?;
        self.blackboards(random, sheet, &facts, form.as_deref())
    }

    /// The form made of a lawful sheet, twice: what the slice held before must not matter.
    fn form_of(
        &mut self,
        random: &mut Random,
        sheet: &[u8],
        facts: &Answer<Facts>,
        known: &Facts,
    ) -> Checked<Vec<u8>> {
        let need = known.sheet.form_need();
        let length = enough(random, need);
        let first = self.make_form(sheet, facts, &Lent::new(random, length, 0))?;
        let length = enough(random, need);
        let lent = Lent::new(random, length, 0);
        let second = self.make_form(sheet, facts, &lent)?;
        if first != second {
            let finding = format!("another form than before: {}", hex(&first.unwrap_or_default()));
            return Err(Difference::told("make_form", vec![("sheet", hex(sheet))], &lent, finding));
        }
        Ok(first.unwrap_or_default())
    }

    /// The calls on the sheet's form, also with a damaged one and with another alphabet, and on its
    /// tree.
    fn follow(&mut self, random: &mut Random, known: &Facts, form: &[u8]) -> Checked<()> {
        let (alphabet, automaton) = (&known.sheet.alphabet_body, &known.sheet.automaton_body);
        self.form(random, alphabet, automaton, form)?;
        if random.one_in(3) {
            let form = form_damage::damaged(random, form);
            self.form(random, alphabet, automaton, &form)?;
        }
        if random.one_in(3) {
            let other = other_alphabets::other(random, form);
            let automaton = automaton_beside(random, &other, form);
            self.form(random, &other, &automaton, form)?;
        }
        if let Some(tree) = &known.tree {
            self.tree(random, alphabet, automaton, tree)?;
        }
        Ok(())
    }

    /// Markings with slices that suffice and with slices around the limits, as the next in the
    /// list; then with tallies that are full or nearly so, and with slices around a tally's length.
    fn markings(
        &mut self,
        random: &mut Random,
        sheet: &[u8],
        facts: &Answer<Facts>,
    ) -> Checked<()> {
        let (form, relations) = match facts {
            Ok(known) => (known.sheet.form_need(), known.sheet.relations_need()),
            Err(_) => (random.below(200), random.below(200)),
        };
        let lengths = [
            [enough(random, form), enough(random, relations)],
            [enough(random, form), around(random, relations)],
            [around(random, form), around(random, relations)],
        ];
        for lengths in lengths {
            let call = Marking { candidate: tallies::candidate(random), sheet, facts };
            self.mark_next(random, call, lengths)?;
        }
        for length in [enough(random, COUNTS), around(random, COUNTS)] {
            let call = Marking { candidate: tallies::candidate(random), sheet, facts };
            let counts = tallies::counts(random, call.candidate, length);
            let tally = Lending::holding(random, length, &counts);
            let [bytes, numbers] = *random.pick(&lengths);
            self.mark(call, &Lent { tally, ..Lent::new(random, bytes, numbers) })?;
        }
        Ok(())
    }
}
