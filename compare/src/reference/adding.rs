//! A transition added: R-8 of document 02. The rules that depend on its terminal are found by the
//! calls, and each of their entries is worked out bit by bit from the numbers that are held below
//! it.

use super::alphabet::Alphabet;
use super::automaton::{self, Automaton, Transition};
use super::form::{Child, Form, FormRule};
use crate::refusal::{Answer, Refusal};

/// The longer automaton, with the new transition as the last one. Refusals 14 to 16 of the old
/// automaton, then 29 of the transition. What 14 tests is the length with one transition more, so
/// that a full automaton gets it before 15 and 16, whatever the new transition is.
pub fn longer(alphabet: &Alphabet, old: &[u8], transition: &[u8]) -> Answer<Automaton> {
    automaton::check_length(old.len() + 6)?;
    let mut automaton = Automaton::read(alphabet, old)?;
    if transition.len() != 6 {
        return Err(Refusal(29));
    }
    let new = automaton::transition(alphabet, automaton.states, transition).ok_or(Refusal(29))?;
    automaton.transitions.push(new);
    Ok(automaton)
}

/// Of each rule, whether it is of kind 0 or 1 with the terminal, or calls such a rule, directly or
/// through others.
pub fn dependent(form: &Form, terminal: u8) -> Vec<bool> {
    let mut callers = vec![Vec::new(); form.rules.len()];
    for (number, rule) in form.rules.iter().enumerate() {
        rule.calls().into_iter().for_each(|called| callers[called].push(number));
    }
    let mut dependent = vec![false; form.rules.len()];
    let named = |number: &usize| has_terminal(&form.rules[*number], terminal);
    let mut found: Vec<usize> = (0..form.rules.len()).filter(named).collect();
    while let Some(number) = found.pop() {
        if !dependent[number] {
            dependent[number] = true;
            found.extend(&callers[number]);
        }
    }
    dependent
}

/// Redoes the entries of the rules that depend on the terminal, each from the entries below as they
/// are held by then. All other numbers are kept.
pub fn redo(automaton: &Automaton, form: &Form, terminal: u8, numbers: &mut [u64]) {
    let dependent = dependent(form, terminal);
    for (number, rule) in form.rules.iter().enumerate() {
        if dependent[number] {
            numbers[number] = entry(automaton, rule, numbers);
        }
    }
}

/// Whether the rule is of kind 0 or 1 with the terminal.
fn has_terminal(rule: &FormRule, wanted: u8) -> bool {
    matches!(rule, FormRule::Node { terminal, .. } if *terminal == wanted)
}

/// A rule's entry by the numbers held below it, over all eight states: bit 8p + q where a run
/// entering at the hole in p ends in q; for rank 0, bit q.
pub fn entry(automaton: &Automaton, rule: &FormRule, held: &[u64]) -> u64 {
    let last_entered = if rule.rank() == 0 { 0 } else { 7 };
    let mut entry = 0;
    for entered in 0..=last_entered {
        for ended in 0..8 {
            if has_run(automaton, rule, held, entered, ended) {
                entry |= 1 << (8 * entered + ended);
            }
        }
    }
    entry
}

/// Whether a run over what the rule derives may enter and end so; a rule of rank 0 is not entered.
fn has_run(automaton: &Automaton, rule: &FormRule, held: &[u64], entered: u8, ended: u8) -> bool {
    match rule {
        FormRule::Node { terminal, children, .. } => automaton.transitions.iter().any(|it| {
            it.terminal == *terminal && it.target == ended && fits(it, children, held, entered)
        }),
        FormRule::Applied { outer, inner } => (0..8)
            .any(|between| holds(held[*inner], 0, between) && holds(held[*outer], between, ended)),
        FormRule::Composed { outer, inner } => (0..8).any(|between| {
            holds(held[*inner], entered, between) && holds(held[*outer], between, ended)
        }),
    }
}

/// Whether each child may have the state that the transition wants there.
fn fits(transition: &Transition, children: &[Child], held: &[u64], entered: u8) -> bool {
    transition.children.iter().zip(children).all(|(&state, child)| match child {
        Child::Rule(number) => holds(held[*number], 0, state),
        Child::Hole => state == entered,
    })
}

/// Whether the number has the bit for these states. Of a rule of rank 0 it is asked with 0 as the
/// state entered, so that only bits 0 to 7 are read.
fn holds(number: u64, entered: u8, ended: u8) -> bool {
    number & (1 << (8 * entered + ended)) != 0
}
