//! The blackboard method under comparison: the tables of a sheet's rules, and the mask by them.

use super::checker::Checker;
use super::difference::{Checked, Difference};
use super::lending::Lent;
use super::request::Request;
use crate::generate::random::Random;
use crate::hex::hex;
use crate::reference::blackboard::TABLE;
use crate::reference::facts::Facts;
use crate::reference::head::rules_behind;
use crate::refusal::{Answer, settle};

impl Checker<'_> {
    /// Lends slices that are too short, longer than needed, and of just the length needed. The mask
    /// must also be the one that the engine finds by the form it made, where one is given, and by
    /// the tree, where that is small.
    pub fn blackboards(
        &mut self,
        random: &mut Random,
        sheet: &[u8],
        facts: &Answer<Facts>,
        form: Option<&[u8]>,
    ) -> Checked<()> {
        let [short, long, exact] = lengths(random, facts);
        for length in [short, long] {
            self.blackboard(sheet, facts, &Lent::new(random, length, 0))?;
        }
        let lent = Lent::new(random, exact, 0);
        let (code, found) = self.blackboard(sheet, facts, &lent)?;
        let (Ok(known), Some(form), 0) = (facts, form, code) else { return Ok(()) };
        for (way, mask) in self.other_masks(random, known, form)? {
            if mask != found.byte {
                let finding = format!("the mask is {}, but by {way} it is {mask}", found.byte);
                let inputs = vec![("sheet", hex(sheet)), ("form", hex(form))];
                return Err(Difference::told("blackboard", inputs, &lent, finding));
            }
        }
        Ok(())
    }

    /// Puts a sheet through the call; hands back the code and what was lent as the call left it.
    pub fn blackboard(
        &mut self,
        sheet: &[u8],
        facts: &Answer<Facts>,
        lent: &Lent,
    ) -> Checked<(u8, Lent)> {
        let (mut expected, mut found) = (lent.clone(), lent.clone());
        let known = facts.as_ref().map_err(|refusal| *refusal);
        let answer = known.and_then(|known| known.blackboard.put(expected.bytes.slice_mut()));
        let wanted = settle(answer, &mut expected.byte);
        let code = self.engine.blackboard(sheet, found.bytes.slice_mut(), &mut found.byte);
        self.histogram.add(wanted);
        let inputs = || vec![("sheet", hex(sheet))];
        Difference::check("blackboard", inputs, lent, (wanted, &expected), (code, &found))
            .map_err(|difference| difference.and(first_byte(&expected, &found)))?;
        Ok((code, found))
    }

    /// The masks that the engine finds in other ways.
    fn other_masks(
        &mut self,
        random: &mut Random,
        known: &Facts,
        form: &[u8],
    ) -> Checked<Vec<(&'static str, u8)>> {
        let (alphabet, automaton) = (&known.sheet.alphabet_body, &known.sheet.automaton_body);
        let evaluate = Request::Evaluate { alphabet, automaton, form };
        let lent = Lent::new(random, 0, rules_behind(form));
        let mut masks = vec![("the form", self.request(evaluate, lent)?.1.byte)];
        if let Some(tree) = &known.tree {
            let walk = Request::Walk { alphabet, automaton, tree };
            let lent = Lent::new(random, tree.len(), 0);
            masks.push(("the tree", self.request(walk, lent)?.1.byte));
        }
        Ok(masks)
    }
}

/// Lengths that are less than needed, more, and just right. Of a refused sheet none and some others,
/// since too short a slice must not be told before 1 to 16.
fn lengths(random: &mut Random, facts: &Answer<Facts>) -> [usize; 3] {
    match facts {
        Ok(known) => {
            let need = known.blackboard.bytes.len();
            let any = random.below(need);
            let short = *random.pick(&[need - 1, need - 1, need - TABLE, 0, any]);
            [short, need + *random.pick(&[1, 1, 40, TABLE]), need]
        }
        Err(_) => [0, TABLE - 1, *random.pick(&[1, TABLE, 2 * TABLE + 1])],
    }
}

/// Where the lent bytes differ first.
fn first_byte(expected: &Lent, found: &Lent) -> String {
    let (expected, found) = (expected.bytes.slice(), found.bytes.slice());
    match expected.iter().zip(found).position(|(expected, found)| expected != found) {
        Some(place) => format!(
            "byte {place}, which is {} of rule {}: expected {:02x}, found {:02x}",
            place % TABLE,
            place / TABLE,
            expected[place],
            found[place]
        ),
        None => "all bytes of the slice are as expected".to_string(),
    }
}
