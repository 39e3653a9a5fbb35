//! The calls whose results the documents fix.

use super::call::Adding;
use super::printed::{lent, lent_holding, slice};
use super::words::{room_text, rule_text, said, size_text, told};
use crate::reference::calls;

pub fn room(sheet: &[u8]) -> String {
    told(calls::room(sheet), room_text)
}

pub fn blackboard(sheet: &[u8], room: usize) -> String {
    let mut table = lent(room);
    said("mask", calls::blackboard(sheet, &mut table)) + &slice("table", &table)
}

pub fn rule(alphabet: &[u8], form: &[u8], number: usize) -> String {
    told(calls::read_rule(alphabet, form, number), rule_text)
}

/// Every rule by its number, then what is said of the number after the last.
pub fn rules(alphabet: &[u8], form: &[u8]) -> String {
    let mut texts = Vec::new();
    for number in 0.. {
        let read = calls::read_rule(alphabet, form, number);
        let refused = read.is_err();
        texts.push(told(read, rule_text));
        if refused {
            break;
        }
    }
    texts.join(", ")
}

pub fn size(alphabet: &[u8], form: &[u8], numbers: usize) -> String {
    let mut counts = lent(numbers);
    told(calls::size(alphabet, form, &mut counts), size_text) + &slice("counts", &counts)
}

pub fn label(alphabet: &[u8], form: &[u8], position: u64, numbers: usize) -> String {
    let mut counts = lent(numbers);
    let found = calls::label(alphabet, form, position, &mut counts);
    said("terminal", found) + &slice("counts", &counts)
}

pub fn unfold(alphabet: &[u8], form: &[u8], numbers: usize, room: usize) -> String {
    let (mut counts, mut tree) = (lent(numbers), lent(room));
    let unfolded = calls::unfold(alphabet, form, &mut counts, &mut tree);
    said("written", unfolded) + &slice("tree", &tree) + &slice("counts", &counts)
}

pub fn evaluate(alphabet: &[u8], automaton: &[u8], form: &[u8], numbers: usize) -> String {
    let mut relations = lent(numbers);
    let evaluated = calls::evaluate(alphabet, automaton, form, &mut relations);
    said("mask", evaluated) + &slice("relations", &relations)
}

pub fn add(adding: &Adding, held: &[u64], numbers: usize) -> String {
    let Adding { alphabet, form, automaton, transition } = adding;
    let mut relations = lent_holding(numbers, held);
    let added = calls::add_transition(alphabet, form, automaton, transition, &mut relations);
    said("mask", added) + &slice("relations", &relations)
}

pub fn walk(alphabet: &[u8], automaton: &[u8], tree: &[u8], room: usize) -> String {
    let mut masks = lent(room);
    said("mask", calls::walk(alphabet, automaton, tree, &mut masks)) + &slice("masks", &masks)
}

pub fn wrap(alphabet: &[u8], tree: &[u8], automaton: &[u8], room: usize) -> String {
    let mut sheet = lent(room);
    said("written", calls::wrap(alphabet, tree, automaton, &mut sheet)) + &slice("sheet", &sheet)
}

pub fn practice(first: u32, m: usize, automaton: &[u8], room: usize) -> String {
    let mut sheet = lent(room);
    said("written", calls::practice(first, m, automaton, &mut sheet)) + &slice("sheet", &sheet)
}
