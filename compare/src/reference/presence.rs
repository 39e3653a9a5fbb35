//! What of a sheet stands in the derived tree, read off what rules derive. A parameter is present
//! where the rule's outline has it. A node of a right side stands where the outline would have a
//! mark in its place. What is written in dropped arguments stands nowhere, be it terminals, calls
//! or parameters.

use super::outline::Outlines;
use super::rules::Rule;
use super::term::Term;

pub struct Presence {
    outlines: Outlines,
}

impl Presence {
    pub fn of(rules: &[Rule]) -> Presence {
        Presence { outlines: Outlines::of(rules) }
    }

    /// Whether the parameter stands in what the rule derives.
    pub fn is_present(&self, rule: usize, parameter: usize) -> bool {
        self.outlines.has_parameter(rule, parameter)
    }

    /// Whether the node of the right side stands in what the right side derives.
    pub fn stands(&self, right: &Term, node: &Term) -> bool {
        self.outlines.has_node(right, node)
    }

    /// Whether the derivation of the start calls every rule. Calls in dropped arguments do not
    /// count.
    pub fn every_rule_is_called(&self, rules: &[Rule]) -> bool {
        let mut called = vec![false; rules.len()];
        if let Some(start) = called.last_mut() {
            *start = true;
        }
        for (number, rule) in rules.iter().enumerate().rev() {
            if !called[number] {
                return false;
            }
            for node in rule.right.nodes() {
                if let Term::Call(lower, _) = node
                    && self.stands(&rule.right, node)
                {
                    called[*lower] = true;
                }
            }
        }
        true
    }
}
