//! The reference in the shape of the C interface.

use super::calls;
use crate::calls::FixedCalls;
use crate::refusal::settle;

pub struct Reference;

impl FixedCalls for Reference {
    fn evaluate(
        &self,
        alphabet: &[u8],
        automaton: &[u8],
        form: &[u8],
        relations: &mut [u64],
        mask: &mut u8,
    ) -> u8 {
        settle(calls::evaluate(alphabet, automaton, form, relations), mask)
    }

    fn add_transition(
        &self,
        alphabet: &[u8],
        form: &[u8],
        automaton: &[u8],
        transition: &[u8],
        relations: &mut [u64],
        mask: &mut u8,
    ) -> u8 {
        settle(calls::add_transition(alphabet, form, automaton, transition, relations), mask)
    }

    fn unfold(
        &self,
        alphabet: &[u8],
        form: &[u8],
        counts: &mut [u64],
        tree: &mut [u8],
        length: &mut usize,
    ) -> u8 {
        settle(calls::unfold(alphabet, form, counts, tree), length)
    }

    fn size(&self, alphabet: &[u8], form: &[u8], counts: &mut [u64], size: &mut u64) -> u8 {
        settle(calls::size(alphabet, form, counts), size)
    }

    fn label(
        &self,
        alphabet: &[u8],
        form: &[u8],
        position: u64,
        counts: &mut [u64],
        terminal: &mut u8,
    ) -> u8 {
        settle(calls::label(alphabet, form, position, counts), terminal)
    }

    fn read_rule(&self, alphabet: &[u8], form: &[u8], number: usize, rule: &mut [u16; 7]) -> u8 {
        settle(calls::read_rule(alphabet, form, number), rule)
    }

    fn walk(
        &self,
        alphabet: &[u8],
        automaton: &[u8],
        tree: &[u8],
        masks: &mut [u8],
        mask: &mut u8,
    ) -> u8 {
        settle(calls::walk(alphabet, automaton, tree, masks), mask)
    }

    fn wrap(
        &self,
        alphabet: &[u8],
        tree: &[u8],
        automaton: &[u8],
        sheet: &mut [u8],
        length: &mut usize,
    ) -> u8 {
        settle(calls::wrap(alphabet, tree, automaton, sheet), length)
    }

    fn practice(
        &self,
        first: u32,
        m: usize,
        automaton: &[u8],
        sheet: &mut [u8],
        length: &mut usize,
    ) -> u8 {
        settle(calls::practice(first, m, automaton, sheet), length)
    }

    fn room(&self, sheet: &[u8], form_bytes: &mut usize, numbers: &mut usize) -> u8 {
        let answer = calls::room(sheet).inspect(|room| *form_bytes = room.form_bytes);
        settle(answer.map(|room| room.numbers), numbers)
    }

    fn blackboard(&self, sheet: &[u8], table: &mut [u8], mask: &mut u8) -> u8 {
        settle(calls::blackboard(sheet, table), mask)
    }
}
