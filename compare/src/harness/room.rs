//! What making and marking ask for, under comparison, and both calls lent just that.

use super::checker::Checker;
use super::difference::Checked;
use super::lending::{Lent, short};
use super::marking::Marking;
use super::request::Request;
use crate::generate::random::Random;
use crate::reference::facts::Facts;
use crate::reference::head::rules_behind;
use crate::refusal::Answer;

impl Checker<'_> {
    /// Asks how much room a sheet needs, whatever the places of the two results held before; hands
    /// back the bytes and the numbers, where the sheet is not refused.
    pub fn room(&mut self, random: &mut Random, sheet: &[u8]) -> Checked<Option<[usize; 2]>> {
        let mut asked = None;
        for held in [0, usize::MAX, random.word() as usize] {
            let lent = Lent { length: held, asked: !held, ..Lent::new(random, 0, 0) };
            let (code, found) = self.request(Request::Room { sheet }, lent)?;
            asked = (code == 0).then_some([found.length, found.asked]);
        }
        Ok(asked)
    }

    /// Lent just so many bytes and numbers as the engine asked for, making and marking refuse
    /// neither slice. With a byte or a number less they do, and also where the form that is made, or
    /// its relations, would still fit.
    pub fn lent_as_asked(
        &mut self,
        random: &mut Random,
        sheet: &[u8],
        facts: &Answer<Facts>,
        form: &[u8],
        [bytes, numbers]: [usize; 2],
    ) -> Checked<()> {
        let short_bytes = short(random, form.len(), bytes);
        let short_numbers = short(random, rules_behind(form), numbers);
        for length in [bytes, bytes - 1, short_bytes] {
            self.make_form(sheet, facts, &Lent::new(random, length, 0))?;
        }
        let lengths = [
            [bytes, numbers],
            [bytes, numbers - 1],
            [bytes, short_numbers],
            [bytes - 1, numbers],
            [short_bytes, numbers],
            [short_bytes, short_numbers],
        ];
        for lengths in lengths {
            let call = Marking { candidate: random.below(16), sheet, facts };
            self.mark_next(random, call, lengths)?;
        }
        Ok(())
    }
}
