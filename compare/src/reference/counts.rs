//! Node counts of form rules, capped at 2^64 - 1.

use super::form::{Child, Form, FormRule};

#[derive(Clone, Copy)]
pub struct Count {
    /// Nodes without the hole.
    pub nodes: u64,
    /// Nodes before the hole; 0 for rank 0.
    pub before: u64,
}

/// The counts of each rule. A sum of capped numbers, capped, is the capped sum.
pub fn of(form: &Form) -> Vec<Count> {
    let mut counts: Vec<Count> = Vec::new();
    for rule in &form.rules {
        let count = match rule {
            FormRule::Node { children, .. } => node(&counts, children),
            FormRule::Applied { outer, inner } => Count {
                nodes: counts[*outer].nodes.saturating_add(counts[*inner].nodes),
                before: 0,
            },
            FormRule::Composed { outer, inner } => Count {
                nodes: counts[*outer].nodes.saturating_add(counts[*inner].nodes),
                before: counts[*outer].before.saturating_add(counts[*inner].before),
            },
        };
        counts.push(count);
    }
    counts
}

fn node(counts: &[Count], children: &[Child]) -> Count {
    let mut count = Count { nodes: 1, before: 0 };
    for child in children {
        match child {
            Child::Rule(number) => count.nodes = count.nodes.saturating_add(counts[*number].nodes),
            Child::Hole => count.before = count.nodes,
        }
    }
    count
}

/// Two entries a rule, as the calls lend them.
pub fn entries(counts: &[Count]) -> Vec<u64> {
    counts.iter().flat_map(|count| [count.nodes, count.before]).collect()
}
