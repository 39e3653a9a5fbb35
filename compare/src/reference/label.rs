//! The terminal at a preorder position of the tree that a form derives.

use super::counts::Count;
use super::form::{Child, Form, FormRule};

/// The terminal at a position below the start's count and below 2^64 - 1. Capped counts lie above
/// every such position, so they mislead no comparison.
pub fn at(form: &Form, counts: &[Count], position: u64) -> u8 {
    in_rule(form, counts, form.start, position)
}

/// Among the rule's own nodes, its hole not counted.
fn in_rule(form: &Form, counts: &[Count], number: usize, position: u64) -> u8 {
    match &form.rules[number] {
        FormRule::Node { terminal, .. } if position == 0 => *terminal,
        FormRule::Node { children, .. } => in_children(form, counts, children, position - 1),
        FormRule::Applied { outer, inner } | FormRule::Composed { outer, inner } => {
            let before = counts[*outer].before;
            if position < before {
                in_rule(form, counts, *outer, position)
            } else if position - before < counts[*inner].nodes {
                in_rule(form, counts, *inner, position - before)
            } else {
                in_rule(form, counts, *outer, position - counts[*inner].nodes)
            }
        }
    }
}

fn in_children(form: &Form, counts: &[Count], children: &[Child], position: u64) -> u8 {
    let mut left = position;
    for child in children {
        if let Child::Rule(number) = child {
            if left < counts[*number].nodes {
                return in_rule(form, counts, *number, left);
            }
            left -= counts[*number].nodes;
        }
    }
    unreachable!("the position lies in some child")
}
