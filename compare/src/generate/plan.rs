//! A sheet in parts, before its bytes are joined.

use crate::reference::calls::joined;

#[derive(Clone)]
pub struct RulePlan {
    pub rank: u8,
    pub nodes: Vec<u8>,
}

#[derive(Clone)]
pub struct Plan {
    pub alphabet: Vec<u8>,
    pub rules: Vec<RulePlan>,
    pub automaton: Vec<u8>,
}

impl Plan {
    /// The sheet, with contents that fit.
    pub fn sheet(&self) -> Vec<u8> {
        joined(&[&self.alphabet, &self.rules_body(), &self.automaton])
    }

    pub fn rules_body(&self) -> Vec<u8> {
        let mut body = Vec::new();
        for rule in &self.rules {
            body.extend([rule.rank, rule.nodes.len() as u8]);
            body.extend(&rule.nodes);
        }
        body
    }

    pub fn node_count(&self) -> usize {
        self.rules.iter().map(|rule| rule.nodes.len()).sum()
    }
}
