//! The table of each rule by source document 003, Theorem 1, for eight choices at a time. They differ
//! in the state of the first parameter alone, and each has a lane of a 64-bit number.

use super::automaton::Automaton;
use super::cleaning::{self, LONGEST_BODY};
use super::evaluation::{LANES, apply};
use super::sheet::{Rule, Sheet};
use std::cell::RefCell;

/// The bytes of a rule's table.
pub const TABLE: usize = 4096;

/// Each state in the lane of its own number.
const IDENTITY: u64 = 0x8040_2010_0804_0201;

struct Method<'s> {
    sheet: &'s Sheet<'s>,
    automaton: Automaton,
    /// Bit i where parameter i is left in what the rule derives.
    present: Vec<u8>,
}

/// The states of the second to the fourth parameter, and how many states the first one may have.
#[derive(Clone, Copy)]
struct Choice {
    others: [usize; 3],
    lanes: usize,
}

/// Writes the tables of the sheet's rules to the front of the slice, and answers the mask.
pub fn blackboard(sheet: &Sheet, tables: &mut [u8]) -> u8 {
    let automaton = Automaton::grouped(sheet.finals, sheet.transitions);
    let method = Method { sheet, automaton, present: present(sheet) };
    for (number, rule) in sheet.rules.iter().enumerate() {
        let (lower, own) = tables.split_at_mut(TABLE * number);
        method.fill(rule, lower, &mut own[..TABLE]);
    }
    tables[TABLE * (sheet.rules.len() - 1)]
}

/// The parameters that are left in what each rule derives.
fn present(sheet: &Sheet) -> Vec<u8> {
    let present = RefCell::new(Vec::with_capacity(sheet.rules.len()));
    let noted = |_: &Rule, nodes: &[u8]| {
        let parameters = cleaning::parameters(nodes);
        present.borrow_mut().push(parameters);
        parameters
    };
    cleaning::clean(sheet.alphabet, &sheet.rules, noted, &mut [0; LONGEST_BODY]);
    present.into_inner()
}

impl Method<'_> {
    fn fill(&self, rule: &Rule, lower: &[u8], own: &mut [u8]) {
        own.fill(0);
        let states = usize::from(self.sheet.states);
        let lanes = if rule.rank == 0 { 1 } else { states };
        let words = 8_usize.pow(u32::from(rule.rank.saturating_sub(1)));
        for (place, word) in own.as_chunks_mut::<8>().0[..words].iter_mut().enumerate() {
            let others = [place % 8, place / 8 % 8, place / 64];
            if others.iter().all(|&state| state < states) {
                let relation = self.right_side(rule, lower, Choice { others, lanes });
                word[..lanes].copy_from_slice(&relation.to_le_bytes()[..lanes]);
            }
        }
    }

    /// The sets of the right side's root, with the nodes from the last to the first.
    fn right_side(&self, rule: &Rule, lower: &[u8], choice: Choice) -> u64 {
        let mut stack = [0; 128];
        let mut low = stack.len();
        for &node in rule.nodes.iter().rev() {
            let (rank, sets) = self.node(node, &stack[low..], lower, choice);
            low = low + rank - 1;
            stack[low] = sets;
        }
        stack[low]
    }

    fn node(&self, node: u8, children: &[u64], lower: &[u8], choice: Choice) -> (usize, u64) {
        match node {
            0x00..=0x1F => {
                let rank = self.sheet.alphabet.rank(node).unwrap_or(0);
                (rank, self.terminal(node, &children[..rank]))
            }
            0x40..=0x7F => {
                let called = usize::from(node - 0x40);
                let rank = usize::from(self.sheet.rules[called].rank);
                (rank, self.call(called, &children[..rank], lower, choice.lanes))
            }
            0x80 => (0, IDENTITY),
            _ => (0, LANES << choice.others[usize::from(node - 0x81)]),
        }
    }

    fn terminal(&self, terminal: u8, children: &[u64]) -> u64 {
        self.automaton.rows(terminal).iter().fold(0, |all, row| {
            let wanted = children.iter().zip(row.children);
            let fits = wanted.fold(LANES, |fits, (sets, state)| fits & (sets >> state));
            all | fits << row.target
        })
    }

    fn call(&self, called: usize, arguments: &[u64], lower: &[u8], lanes: usize) -> u64 {
        let mut sets = [LANES; 4];
        for (place, (set, argument)) in sets.iter_mut().zip(arguments).enumerate() {
            if self.present[called] >> place & 1 == 1 {
                *set = *argument;
            }
        }
        let table = &lower[TABLE * called..TABLE * (called + 1)];
        (0..lanes).fold(0, |all, lane| {
            let sets = sets.map(|set| (set >> (8 * lane)) as u8);
            all | apply(joined(table, &sets, 3, 0), sets[0]) << (8 * lane)
        })
    }
}

/// The union of the table's relations between the states of the first parameter and of the root, for
/// the states in the sets of the next so many parameters.
fn joined(table: &[u8], sets: &[u8; 4], parameters: usize, first: usize) -> u64 {
    if parameters == 0 {
        return u64::from_le_bytes(table.as_chunks().0[first]);
    }
    let states = (0..8).filter(|state| sets[parameters] >> state & 1 == 1);
    states.fold(0, |all, state| {
        all | joined(table, sets, parameters - 1, first + (state << (3 * (parameters - 1))))
    })
}
