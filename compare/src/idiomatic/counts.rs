//! Node counts of a form's rules, and the label at a position.

use super::form::{Form, FormRule};
use crate::refusal::{Answer, Refusal};

#[derive(Clone, Copy)]
pub struct Count {
    pub nodes: u64,
    pub before: u64,
}

/// The counts of all rules, if the lent slice has room for two numbers each.
pub fn counts(form: &Form, lent: &[u64]) -> Answer<Vec<Count>> {
    if lent.len() < 2 * form.rules.len() {
        return Err(Refusal(19));
    }
    let mut counts = Vec::with_capacity(form.rules.len());
    for rule in &form.rules {
        counts.push(count(rule, &counts));
    }
    Ok(counts)
}

/// Copies the counts to the lent slice's front.
pub fn lend(counts: &[Count], lent: &mut [u64]) {
    for (pair, count) in lent.chunks_exact_mut(2).zip(counts) {
        pair.copy_from_slice(&[count.nodes, count.before]);
    }
}

/// The terminal at a position below the start's count.
pub fn label(form: &Form, counts: &[Count], mut position: u64) -> u8 {
    let mut number = form.start;
    loop {
        match form.rules[usize::from(number)] {
            FormRule::Tree { terminal, slots } | FormRule::Context { terminal, slots, .. } => {
                if position == 0 {
                    return terminal;
                }
                (number, position) = child(counts, &slots, position - 1);
            }
            FormRule::Applied { outer, inner } | FormRule::Composed { outer, inner } => {
                let before = counts[usize::from(outer)].before;
                let nodes = counts[usize::from(inner)].nodes;
                if position < before {
                    number = outer;
                } else if position - before < nodes {
                    (number, position) = (inner, position - before);
                } else {
                    (number, position) = (outer, position - nodes);
                }
            }
        }
    }
}

fn child(counts: &[Count], slots: &[u16; 4], mut position: u64) -> (u16, u64) {
    for &slot in slots.iter().filter(|&&slot| slot != 0xFFFF) {
        let nodes = counts[usize::from(slot)].nodes;
        if position < nodes {
            return (slot, position);
        }
        position -= nodes;
    }
    unreachable!("the position lies in some child")
}

fn count(rule: &FormRule, lower: &[Count]) -> Count {
    let of = |slot: u16| lower[usize::from(slot)];
    let sum = |slots: &[u16]| {
        slots
            .iter()
            .filter(|&&slot| slot != 0xFFFF)
            .fold(1_u64, |nodes, &slot| nodes.saturating_add(of(slot).nodes))
    };
    match *rule {
        FormRule::Tree { slots, .. } => Count { nodes: sum(&slots), before: 0 },
        FormRule::Context { hole, slots, .. } => {
            Count { nodes: sum(&slots), before: sum(&slots[..usize::from(hole)]) }
        }
        FormRule::Applied { outer, inner } => {
            Count { nodes: of(outer).nodes.saturating_add(of(inner).nodes), before: 0 }
        }
        FormRule::Composed { outer, inner } => Count {
            nodes: of(outer).nodes.saturating_add(of(inner).nodes),
            before: of(outer).before.saturating_add(of(inner).before),
        },
    }
}
