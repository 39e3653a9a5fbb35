//! What a form derives, written out or as a fingerprint.

use super::fingerprint::Fingerprint;
use super::form::{Child, Form, FormRule};

/// The terminals of the start's tree in preorder.
pub fn preorder(form: &Form) -> Vec<u8> {
    derive(form, form.start).into_iter().map(|node| node.expect("the start has no hole")).collect()
}

/// What a rule derives in preorder, with `None` for the open place.
pub fn derive(form: &Form, number: usize) -> Vec<Option<u8>> {
    match &form.rules[number] {
        FormRule::Node { terminal, children, .. } => {
            let mut nodes = vec![Some(*terminal)];
            for child in children {
                match child {
                    Child::Rule(number) => nodes.extend(derive(form, *number)),
                    Child::Hole => nodes.push(None),
                }
            }
            nodes
        }
        FormRule::Applied { outer, inner } | FormRule::Composed { outer, inner } => {
            let mut nodes = derive(form, *outer);
            let hole = nodes.iter().position(Option::is_none).expect("rank 1 has a hole");
            nodes.splice(hole..=hole, derive(form, *inner));
            nodes
        }
    }
}

/// The fingerprint of the start's tree in preorder.
pub fn fingerprint(form: &Form) -> Fingerprint {
    let mut around: Vec<[Fingerprint; 2]> = Vec::new();
    for rule in &form.rules {
        let sides = sides(&around, rule);
        around.push(sides);
    }
    around[form.start][0]
}

/// Before and after the open place; for rank 0 all is before.
fn sides(around: &[[Fingerprint; 2]], rule: &FormRule) -> [Fingerprint; 2] {
    match rule {
        FormRule::Node { terminal, children, .. } => {
            let mut sides = [Fingerprint::of(*terminal), Fingerprint::EMPTY];
            let mut side = 0;
            for child in children {
                match child {
                    Child::Rule(number) => sides[side] = sides[side].then(around[*number][0]),
                    Child::Hole => side = 1,
                }
            }
            sides
        }
        FormRule::Applied { outer, inner } => {
            let [before, behind] = around[*outer];
            [before.then(around[*inner][0]).then(behind), Fingerprint::EMPTY]
        }
        FormRule::Composed { outer, inner } => {
            let [before, behind] = around[*outer];
            [before.then(around[*inner][0]), around[*inner][1].then(behind)]
        }
    }
}
