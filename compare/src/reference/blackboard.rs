//! The blackboard: R-7 of document 02. Theorem 1's tables, bit by bit where the document puts them.

use super::automaton::has;
use super::sheet::Sheet;
use super::theorem::{self, Table};
use crate::refusal::{Answer, Refusal};

/// So many bytes are lent for each rule.
pub const TABLE: usize = 4096;

/// What the state at each parameter counts in the number of a bit; the state at the root counts 1.
const WEIGHTS: [usize; 4] = [8, 64, 512, 4096];

pub struct Blackboard {
    /// The tables of all rules, one behind the other.
    pub bytes: Vec<u8>,
    pub mask: u8,
}

impl Blackboard {
    pub fn of(sheet: &Sheet) -> Blackboard {
        let states = sheet.automaton.states;
        let tables = theorem::tables(&sheet.automaton, &sheet.rules);
        let mut bytes = vec![0; TABLE * tables.len()];
        for ((rule, table), place) in sheet.rules.iter().zip(&tables).zip(bytes.chunks_mut(TABLE)) {
            set_bits(states, rule.rank, table, place);
        }
        Blackboard { bytes, mask: theorem::mask_by(&tables) }
    }

    /// Writes at the slice's front and answers the mask; what lies behind is kept. Refusal 19.
    pub fn put(&self, slice: &mut [u8]) -> Answer<u8> {
        let front = slice.get_mut(..self.bytes.len()).ok_or(Refusal(19))?;
        front.copy_from_slice(&self.bytes);
        Ok(self.mask)
    }
}

/// Sets the bit of each choice of states for which there is a run. Choices of other states, and of
/// parameters that the rule does not have, are not among the tuples.
fn set_bits(states: u8, rank: usize, table: &Table, place: &mut [u8]) {
    for (tuple, &roots) in table.iter().enumerate() {
        let entered = theorem::entered(states, rank, tuple);
        for root in (0..states).filter(|&root| has(roots, root)) {
            let bit = bit(root, &entered);
            place[bit / 8] |= 1 << (bit % 8);
        }
    }
}

/// The number of the bit for these states at the root and at the parameters.
fn bit(root: u8, entered: &[u8]) -> usize {
    let shares = entered.iter().zip(WEIGHTS).map(|(&state, weight)| weight * usize::from(state));
    usize::from(root) + shares.sum::<usize>()
}
