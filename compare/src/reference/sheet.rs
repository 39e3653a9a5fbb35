//! A sheet: contents, alphabet, rules and automaton.

use super::alphabet::Alphabet;
use super::automaton::Automaton;
use super::head;
use super::rules::{self, Rule};
use super::term::Term;
use crate::refusal::{Answer, Refusal};

pub struct Sheet {
    pub alphabet_body: Vec<u8>,
    pub automaton_body: Vec<u8>,
    pub rules: Vec<Rule>,
    pub automaton: Automaton,
}

impl Sheet {
    /// Refusals 1 to 16.
    pub fn read(bytes: &[u8]) -> Answer<Sheet> {
        if bytes.len() < 12 || bytes.len() > 1832 {
            return Err(Refusal(1));
        }
        let [alphabet_body, rules_body, automaton_body] = bodies(bytes).ok_or(Refusal(2))?;
        let alphabet = Alphabet::read(alphabet_body)?;
        let rules = rules::read(&alphabet, rules_body)?;
        let automaton = Automaton::read(&alphabet, automaton_body)?;
        Ok(Sheet {
            alphabet_body: alphabet_body.to_vec(),
            automaton_body: automaton_body.to_vec(),
            rules,
            automaton,
        })
    }

    /// G: all right-side nodes as written, parameters and dropped arguments included.
    pub fn node_count(&self) -> usize {
        self.rules.iter().map(|rule| rule.right.nodes().len()).sum()
    }

    /// 2 for each terminal node as written and 4n - 3 for each call of a rule of rank n above 0: no
    /// form made of the sheet has more rules. Rules that are never called and dropped arguments are
    /// included, and ranks are as written.
    pub fn rule_bound(&self) -> usize {
        let nodes = self.rules.iter().flat_map(|rule| rule.right.nodes());
        nodes.map(|node| self.node_bound(node)).sum()
    }

    /// What a node counts of that.
    pub fn node_bound(&self, node: &Term) -> usize {
        match node {
            Term::Terminal(..) => 2,
            Term::Call(rule, _) if self.rules[*rule].rank > 0 => 4 * self.rules[*rule].rank - 3,
            _ => 0,
        }
    }

    /// Of each rule, whether the start is that rule or calls it as written, directly or through
    /// others.
    pub fn called_from_start(&self) -> Vec<bool> {
        let mut called = vec![false; self.rules.len()];
        called[self.rules.len() - 1] = true;
        for (number, rule) in self.rules.iter().enumerate().rev() {
            for node in rule.right.nodes() {
                if let Term::Call(lower, _) = node {
                    called[*lower] |= called[number];
                }
            }
        }
        called
    }

    /// The bytes that making and marking ask for: those of the head and of as many rules as the
    /// bound.
    pub fn form_need(&self) -> usize {
        head::length(self.alphabet_body.len()) + 12 * self.rule_bound()
    }

    /// The numbers that marking asks for.
    pub fn relations_need(&self) -> usize {
        self.rule_bound()
    }
}

/// The three bodies, if the contents join from offset 12 to the end.
fn bodies(bytes: &[u8]) -> Option<[&[u8]; 3]> {
    let number = |at: usize| usize::from(bytes[at]) + 256 * usize::from(bytes[at + 1]);
    let mut end = 12;
    let mut bodies: [&[u8]; 3] = [&[]; 3];
    for (entry, body) in bodies.iter_mut().enumerate() {
        let (offset, length) = (number(4 * entry), number(4 * entry + 2));
        if offset != end {
            return None;
        }
        *body = bytes.get(offset..offset + length)?;
        end = offset + length;
    }
    (end == bytes.len()).then_some(bodies)
}
