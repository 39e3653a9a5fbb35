//! The plain walk over a preorder tree.

use super::alphabet::Alphabet;
use super::automaton::Automaton;
use super::preorder::is_one_tree;
use crate::refusal::{Answer, Refusal};

/// Refusals 22 and 23.
pub fn check(alphabet: Alphabet, tree: &[u8], most: usize) -> Answer<()> {
    if tree.len() > most {
        return Err(Refusal(22));
    }
    let named = tree.iter().all(|&terminal| alphabet.rank(terminal).is_some());
    if !named || !is_one_tree(tree.iter().filter_map(|&terminal| alphabet.rank(terminal))) {
        return Err(Refusal(23));
    }
    Ok(())
}

pub struct Walker<'a> {
    pub alphabet: Alphabet<'a>,
    pub automaton: &'a Automaton,
    pub tree: &'a [u8],
    pub masks: &'a mut [u8],
}

impl Walker<'_> {
    /// Fills the masks of the subtree at a position and answers its end.
    pub fn node(&mut self, at: usize) -> usize {
        let terminal = self.tree[at];
        let mut sets = [0xFF; 4];
        let end = self.children(at + 1, &mut sets[..self.alphabet.rank(terminal).unwrap_or(0)]);
        self.masks[at] = self.automaton.step(terminal, sets) as u8;
        end
    }

    fn children(&mut self, mut at: usize, sets: &mut [u8]) -> usize {
        for set in sets {
            let end = self.node(at);
            *set = self.masks[at];
            at = end;
        }
        at
    }
}
