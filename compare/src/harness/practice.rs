//! Practice sheets put through the calls: what is written, and the tree it unfolds to.

use super::checker::Checker;
use super::difference::{Checked, Difference};
use super::lending::{Lending, Lent, around, enough};
use super::request::Request;
use crate::generate::practice::Practice;
use crate::generate::random::Random;
use crate::hex::hex;
use crate::reference::described::Described;
use crate::reference::facts::Facts;
use crate::reference::head::rules_behind;
use crate::reference::practice::{ALPHABET, drawn, rules};
use crate::refusal::{Answer, Refusal};

impl Checker<'_> {
    pub fn practice(&mut self, random: &mut Random, practice: &Practice) -> Checked<()> {
        let Practice { first, m, automaton } = practice;
        let request = Request::Practice { first: *first, m: *m, automaton };
        let need = match m {
            1..=20 => 15 + rules(&drawn(*first, *m)).len() + automaton.len(),
            // Too short a slice must not be told before 27.
            _ => *random.pick(&[0, 30, 1832]),
        };
        let length = enough(random, need);
        self.same_sheet(random, request, length)?;
        let tight = around(random, need);
        self.request(request, Lent::new(random, tight, 0))?;
        let lent = Lent::new(random, length, 0);
        let (code, found) = self.request(request, lent.clone())?;
        if code != 0 {
            return Ok(());
        }
        let sheet = &found.bytes.slice()[..found.length];
        let facts = Facts::of(sheet);
        let described = Described::of(&drawn(*first, *m));
        let told = |finding| Difference::told("practice", request.inputs(), &lent, finding);
        let known = lawful(&facts).map_err(told)?;
        described.check(known).map_err(told)?;
        self.room(random, sheet)?;
        let form_length = enough(random, known.sheet.form_need());
        let made = self.make_form(sheet, &facts, &Lent::new(random, form_length, 0))?;
        let form = made.unwrap_or_default();
        self.unfolds(random, &described, &form)?;
        self.blackboards(random, sheet, &facts, Some(&form))
    }

    /// What the slice held before must not matter.
    fn same_sheet(&self, random: &mut Random, request: Request, length: usize) -> Checked<()> {
        let mut lend = |held: u8| Lent {
            bytes: Lending::holding(random, length, &vec![held; length]),
            ..Lent::new(random, 0, 0)
        };
        let (zeros, ones) = (lend(0), lend(0xFF));
        let (first, second) = (self.written(request, &zeros), self.written(request, &ones));
        if first != second {
            let first = first.map_or("none".to_string(), |sheet| hex(&sheet));
            let finding = format!("another sheet than over zeros, where it is {first}");
            return Err(Difference::told("practice", request.inputs(), &ones, finding));
        }
        Ok(())
    }

    /// The sheet that the engine says it wrote, if it refused nothing.
    fn written(&self, request: Request, lent: &Lent) -> Option<Vec<u8>> {
        let mut found = lent.clone();
        let code = request.put(self.engine, &mut found);
        let sheet = found.bytes.slice().get(..found.length)?;
        (code == 0).then(|| sheet.to_vec())
    }

    /// The form of a written sheet has the size of the tree that the draws describe and, where
    /// that is small, unfolds to it.
    fn unfolds(&mut self, random: &mut Random, described: &Described, form: &[u8]) -> Checked<()> {
        let counts = 2 * rules_behind(form);
        let size = Request::Size { alphabet: &ALPHABET, form };
        let lent = Lent::new(random, 0, counts);
        let (_, found) = self.request(size, lent.clone())?;
        if found.size != described.whole.length {
            let finding = format!("the draws describe {} nodes", described.whole.length);
            return Err(Difference::told("size", size.inputs(), &lent, finding));
        }
        let Some(tree) = &described.tree else { return Ok(()) };
        let unfold = Request::Unfold { alphabet: &ALPHABET, form };
        let length = enough(random, tree.len());
        let lent = Lent::new(random, length, counts);
        let (_, found) = self.request(unfold, lent.clone())?;
        if found.bytes.slice().get(..found.length) != Some(tree) {
            let finding = format!("the draws describe {}", hex(tree));
            return Err(Difference::told("unfold", unfold.inputs(), &lent, finding));
        }
        Ok(())
    }
}

/// The facts of a sheet that must pass 1 to 16.
fn lawful(facts: &Answer<Facts>) -> Result<&Facts, String> {
    facts.as_ref().map_err(|Refusal(number)| format!("the sheet written is refused by {number}"))
}
