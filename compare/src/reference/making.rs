//! Form making: what it refuses, and what must hold of the form it makes. Which form that is, is
//! free.

use super::counts;
use super::facts::Facts;
use super::form::Form;
use super::head;
use super::label;
use super::presence::Presence;
use super::relations;
use super::unfolding;
use crate::refusal::{Answer, Refusal};

/// The facts by which a form is made in a slice of this length: refusals 1 to 17.
pub fn allowed(facts: &Answer<Facts>, form_length: usize) -> Answer<&Facts> {
    let facts = facts.as_ref().map_err(|refusal| *refusal)?;
    if form_length < facts.sheet.form_need() {
        return Err(Refusal(17));
    }
    Ok(facts)
}

/// Whether the bytes are a form that may be made of the sheet, and what is wrong if not.
pub fn check(facts: &Facts, bytes: &[u8]) -> Result<(), String> {
    check_head(facts, bytes)?;
    let form = Form::read(bytes).map_err(|_| "the form is not valid")?;
    check_bounds(facts, &form)?;
    if unfolding::fingerprint(&form) != facts.whole {
        return Err("the form derives another tree".to_string());
    }
    if facts.tree.as_ref().is_some_and(|tree| *tree != unfolding::preorder(&form)) {
        return Err("the form derives another small tree".to_string());
    }
    check_labels(facts, &form)?;
    let mask = relations::of(&facts.sheet.automaton, &form)[form.start];
    if mask != u64::from(facts.mask) {
        return Err(format!("the form's mask is {mask}, the sheet's {}", facts.mask));
    }
    check_reached(facts, &form)
}

/// The head must carry the sheet's alphabet, so that no call with that alphabet gets 28.
fn check_head(facts: &Facts, bytes: &[u8]) -> Result<(), String> {
    let wanted = &facts.sheet.alphabet_body;
    match head::ranks(bytes) {
        Some(ranks) if ranks == wanted => Ok(()),
        Some(ranks) => Err(format!("the form's head has ranks {ranks:?}, the sheet {wanted:?}")),
        None => Err("the form's head is cut".to_string()),
    }
}

fn check_bounds(facts: &Facts, form: &Form) -> Result<(), String> {
    let count = form.rules.len();
    for bound in [16 * facts.sheet.node_count(), facts.sheet.rule_bound()] {
        if count > bound {
            return Err(format!("{count} rules, but {bound} are the most"));
        }
    }
    Ok(())
}

/// The labels that were found straight from the grammar.
fn check_labels(facts: &Facts, form: &Form) -> Result<(), String> {
    let counts = counts::of(form);
    for &(position, wanted) in &facts.labels {
        let got = label::at(form, &counts, position);
        if wanted != got {
            return Err(format!("label at {position}: expected {wanted}, the form has {got}"));
        }
    }
    Ok(())
}

/// No rule of a form stands for a part that is not in the tree of the sheet's rule that writes it.
/// Where the derivation of the sheet's start calls every rule, each such part is one of the sheet's
/// tree, so that the form's start must reach every rule of the form.
fn check_reached(facts: &Facts, form: &Form) -> Result<(), String> {
    let rules = &facts.sheet.rules;
    match form.reached().iter().position(|reached| !reached) {
        Some(number) if Presence::of(rules).every_rule_is_called(rules) => {
            Err(format!("rule {number} of the form stands for no part of the tree"))
        }
        _ => Ok(()),
    }
}
