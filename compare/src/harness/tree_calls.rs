//! A preorder tree put through the calls.

use super::checker::Checker;
use super::difference::Checked;
use super::lending::{Lent, around, enough};
use super::request::Request;
use crate::generate::random::Random;

impl Checker<'_> {
    pub fn tree(
        &mut self,
        random: &mut Random,
        alphabet: &[u8],
        automaton: &[u8],
        tree: &[u8],
    ) -> Checked<()> {
        for masks in [enough(random, tree.len()), around(random, tree.len())] {
            let lent = Lent::new(random, masks, 0);
            self.request(Request::Walk { alphabet, automaton, tree }, lent)?;
        }
        let need = 14 + alphabet.len() + tree.len() + automaton.len();
        for length in [enough(random, need), around(random, need)] {
            let lent = Lent::new(random, length, 0);
            self.request(Request::Wrap { alphabet, tree, automaton }, lent)?;
        }
        Ok(())
    }
}
