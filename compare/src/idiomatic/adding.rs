//! Relations carried over to an automaton with one transition more: one pass over the rules, in
//! which only those that depend on the transition's terminal are worked out.

use super::alphabet::Alphabet;
use super::automaton::{Automaton, exists};
use super::evaluation::relation;
use super::form::{Form, FormRule, MOST_RULES};
use crate::limits::MOST_TRANSITIONS;
use crate::refusal::{Answer, Refusal};

/// The longer automaton, and the terminal of the new transition: refusals 14 to 16, then 29.
pub fn longer(alphabet: Alphabet, old: &[u8], transition: &[u8]) -> Answer<(Automaton, u8)> {
    let (finals, rows) = Automaton::check_most(alphabet, old, MOST_TRANSITIONS - 1)?;
    let new: &[u8; 6] = transition.try_into().map_err(|_| Refusal(29))?;
    if !exists(alphabet, old[0], new) {
        return Err(Refusal(29));
    }
    let mut longer = [[0; 6]; MOST_TRANSITIONS];
    longer[..rows.len()].copy_from_slice(rows);
    longer[rows.len()] = *new;
    Ok((Automaton::grouped(finals, &longer[..=rows.len()]), new[0]))
}

/// Redoes the relations of the rules that depend on the terminal, and answers the start's mask.
pub fn add(automaton: &Automaton, terminal: u8, form: &Form, relations: &mut [u64]) -> u8 {
    let mut dependent = [false; MOST_RULES];
    for (number, rule) in form.rules.iter().enumerate() {
        if depends(rule, terminal, &dependent) {
            dependent[number] = true;
            relations[number] = relation(automaton, rule, relations);
        }
    }
    relations[usize::from(form.start)] as u8
}

/// Whether the rule has the terminal or calls one of the lower rules that depend on it.
fn depends(rule: &FormRule, wanted: u8, lower: &[bool; MOST_RULES]) -> bool {
    let on = |slot: u16| lower.get(usize::from(slot)).is_some_and(|&dependent| dependent);
    match *rule {
        FormRule::Tree { terminal, slots } | FormRule::Context { terminal, slots, .. } => {
            terminal == wanted || slots.into_iter().any(on)
        }
        FormRule::Applied { outer, inner } | FormRule::Composed { outer, inner } => {
            on(outer) || on(inner)
        }
    }
}
