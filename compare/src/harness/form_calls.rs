//! A form put through the calls.

use super::checker::Checker;
use super::difference::Checked;
use super::lending::{Lent, around, enough};
use super::request::Request;
use crate::generate::additions;
use crate::generate::form_inputs::FormInput;
use crate::generate::random::Random;
use crate::reference::head::rules_behind;

/// Longer trees are not written out.
const MOST: u64 = 8192;

impl Checker<'_> {
    pub fn form(
        &mut self,
        random: &mut Random,
        alphabet: &[u8],
        automaton: &[u8],
        form: &[u8],
    ) -> Checked<()> {
        let count = rules_behind(form);
        for relations in [enough(random, count), around(random, count)] {
            let lent = Lent::new(random, 0, relations);
            self.request(Request::Evaluate { alphabet, automaton, form }, lent)?;
        }
        for counts in [enough(random, 2 * count), around(random, 2 * count)] {
            let lent = Lent::new(random, 0, counts);
            let (code, lent) = self.request(Request::Size { alphabet, form }, lent)?;
            let size = if code == 0 { lent.size } else { 0 };
            self.labels(random, alphabet, form, size, counts)?;
            self.unfoldings(random, alphabet, form, size, counts)?;
        }
        self.readings(random, alphabet, form, count)?;
        let [alphabet, automaton, form] = [alphabet, automaton, form].map(<[u8]>::to_vec);
        let random = &mut random.branch();
        let addition = additions::beside(random, FormInput { alphabet, automaton, form });
        self.additions(random, &addition)
    }

    fn labels(
        &mut self,
        random: &mut Random,
        alphabet: &[u8],
        form: &[u8],
        size: u64,
        counts: usize,
    ) -> Checked<()> {
        let within = random.word() % size.max(1);
        let near = size.wrapping_sub(2).wrapping_add(random.below(4) as u64);
        let any = random.word();
        let far = *random.pick(&[u64::MAX, u64::MAX - 1, any]);
        for position in [within, near, far] {
            let lent = Lent::new(random, 0, counts);
            self.request(Request::Label { alphabet, form, position }, lent)?;
        }
        Ok(())
    }

    fn unfoldings(
        &mut self,
        random: &mut Random,
        alphabet: &[u8],
        form: &[u8],
        size: u64,
        counts: usize,
    ) -> Checked<()> {
        let need = if size <= MOST { size as usize } else { random.below(300) };
        for length in [enough(random, need), around(random, need)] {
            let lent = Lent::new(random, length, counts);
            self.request(Request::Unfold { alphabet, form }, lent)?;
        }
        Ok(())
    }

    fn readings(
        &mut self,
        random: &mut Random,
        alphabet: &[u8],
        form: &[u8],
        count: usize,
    ) -> Checked<()> {
        let past = *random.pick(&[count, count + 1, 0xFFFF, usize::MAX]);
        for number in [random.below(count + 1), count.saturating_sub(1), past] {
            let lent = Lent::new(random, 0, 0);
            self.request(Request::ReadRule { alphabet, form, number }, lent)?;
        }
        Ok(())
    }
}
