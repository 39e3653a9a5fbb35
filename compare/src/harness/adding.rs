//! A transition added, under comparison: to the relations of the old automaton, and to numbers of
//! any content.

use super::checker::Checker;
use super::difference::{Checked, Difference};
use super::lending::{Lending, Lent, around, enough};
use super::request::Request;
use crate::generate::additions::Addition;
use crate::generate::held;
use crate::generate::random::Random;
use crate::reference::head::rules_behind;

impl Checker<'_> {
    /// Adds the transition to what evaluation leaves, and to other contents in slices that suffice
    /// and in one around the length needed.
    pub fn additions(&mut self, random: &mut Random, addition: &Addition) -> Checked<()> {
        let count = rules_behind(&addition.form);
        let relations = self.carried_over(random, addition)?;
        for length in [count, enough(random, count), around(random, count)] {
            let held = held::numbers(random, &relations);
            self.add(random, addition, &held, length)?;
        }
        Ok(())
    }

    /// Adds the transition to these numbers in a slice of this length.
    pub fn add(
        &mut self,
        random: &mut Random,
        addition: &Addition,
        held: &[u64],
        length: usize,
    ) -> Checked<(u8, Lent)> {
        let numbers = Lending::holding(random, length, held);
        self.request(addition.request(), Lent { numbers, ..Lent::new(random, 0, 0) })
    }

    /// Adds the transition to the relations of the old automaton, where evaluation refuses nothing.
    /// Slice and mask must then be those of a fresh evaluation of the longer automaton, and no bit
    /// may be lost. Hands back the old relations, or zeros where there are none.
    fn carried_over(&mut self, random: &mut Random, addition: &Addition) -> Checked<Vec<u64>> {
        let Addition { alphabet, form, automaton, transition } = addition;
        let count = rules_behind(form);
        let length = enough(random, count);
        let lent = Lent::new(random, 0, length);
        let (code, old) = self.request(Request::Evaluate { alphabet, automaton, form }, lent)?;
        if code != 0 {
            return Ok(vec![0; count]);
        }
        let add = addition.request();
        let (code, found) = self.request(add, old.clone())?;
        if code == 0 {
            let longer = [&automaton[..], transition].concat();
            let evaluate = Request::Evaluate { alphabet, automaton: &longer, form };
            let (_, fresh) = self.request(evaluate, old.clone())?;
            let told = |finding| Difference::told(add.name(), add.inputs(), &old, finding);
            as_carried_over(&old, &found, &fresh).map_err(told)?;
        }
        Ok(old.numbers.slice()[..count].to_vec())
    }
}

impl Addition {
    pub fn request(&self) -> Request<'_> {
        let Addition { alphabet, form, automaton, transition } = self;
        Request::Add { alphabet, form, automaton, transition }
    }
}

/// Whether what was left of the old relations is what a fresh evaluation leaves, and has all of
/// their bits.
fn as_carried_over(old: &Lent, found: &Lent, fresh: &Lent) -> Result<(), String> {
    let slices = [old, found, fresh].map(|lent| lent.numbers.slice());
    for (place, &fresh) in slices[2].iter().enumerate() {
        let (old, found) = (slices[0][place], slices[1][place]);
        if found != fresh {
            return Err(format!(
                "number {place} is {found:x}, but by a fresh evaluation {fresh:x}"
            ));
        }
        if old & !found != 0 {
            return Err(format!("number {place} was {old:x} and is {found:x}: bits are lost"));
        }
    }
    if found.byte != fresh.byte {
        let (found, fresh) = (found.byte, fresh.byte);
        return Err(format!("the mask is {found}, but by a fresh evaluation {fresh}"));
    }
    Ok(())
}
