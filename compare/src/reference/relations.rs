//! The relation of each form rule: between the states at its open place and at its root.

use super::automaton::{Automaton, has};
use super::form::{Child, Form, FormRule};

/// Entry i is the relation of rule i: bit 8p + q where a run entering at the hole in p ends in q;
/// for rank 0, bit q.
pub fn of(automaton: &Automaton, form: &Form) -> Vec<u64> {
    let mut entries: Vec<u64> = Vec::new();
    for rule in &form.rules {
        let ending = |entered: u8| endings(automaton, &entries, rule, entered);
        let entry = match rule.rank() {
            0 => u64::from(ending(0)),
            _ => (0..automaton.states).map(|p| u64::from(ending(p)) << (8 * p)).sum(),
        };
        entries.push(entry);
    }
    entries
}

/// The states in which a run over what the rule derives may end when it enters in this state; a
/// rule of rank 0 is not entered.
fn endings(automaton: &Automaton, entries: &[u64], rule: &FormRule, entered: u8) -> u8 {
    match rule {
        FormRule::Node { terminal, children, .. } => {
            let set = |child: &Child| match child {
                Child::Rule(number) => entries[*number] as u8,
                Child::Hole => 1 << entered,
            };
            let sets: Vec<u8> = children.iter().map(set).collect();
            automaton.step(*terminal, &sets)
        }
        FormRule::Applied { outer, inner } => image(entries[*outer], entries[*inner] as u8),
        FormRule::Composed { outer, inner } => {
            image(entries[*outer], row(entries[*inner], entered))
        }
    }
}

/// The states in which a run may end that enters in this state.
fn row(relation: u64, entered: u8) -> u8 {
    (relation >> (8 * entered)) as u8
}

/// The states in which a run may end that enters in some state of the set.
fn image(relation: u64, set: u8) -> u8 {
    (0..8).filter(|&state| has(set, state)).fold(0, |all, state| all | row(relation, state))
}
