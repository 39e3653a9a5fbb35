//! A sheet's rules: a rank and a right side each.

use super::alphabet::Alphabet;
use super::term::{Symbol, Term};
use crate::refusal::{Answer, Refusal};

pub struct Rule {
    pub rank: usize,
    pub right: Term,
}

/// Refusals 5 to 13, of which 12 is retired.
pub fn read(alphabet: &Alphabet, body: &[u8]) -> Answer<Vec<Rule>> {
    let written = split(body).ok_or(Refusal(5))?;
    if written.len() > 64 {
        return Err(Refusal(6));
    }
    if written.iter().map(|(_, nodes)| nodes.len()).sum::<usize>() > 128 {
        return Err(Refusal(7));
    }
    let mut rules = Vec::new();
    for (rank, nodes) in written {
        let rule = rule(alphabet, &rules, rank, nodes)?;
        rules.push(rule);
    }
    match rules.last() {
        Some(start) if start.rank == 0 => Ok(rules),
        _ => Err(Refusal(13)),
    }
}

/// The rank byte and the nodes of each rule, if the body has one and ends where a rule ends.
fn split(body: &[u8]) -> Option<Vec<(u8, &[u8])>> {
    let mut written = Vec::new();
    let mut rest = body;
    while !rest.is_empty() {
        let count = usize::from(*rest.get(1)?);
        written.push((rest[0], rest.get(2..2 + count)?));
        rest = &rest[2 + count..];
    }
    (!written.is_empty()).then_some(written)
}

/// Refusals 8 to 11 for the rule after the lower ones. Each looks at the right side as it is
/// written, dropped arguments included.
fn rule(alphabet: &Alphabet, lower: &[Rule], rank: u8, nodes: &[u8]) -> Answer<Rule> {
    if rank > 4 {
        return Err(Refusal(8));
    }
    let rank = usize::from(rank);
    let named = nodes
        .iter()
        .map(|&node| name(alphabet, lower, rank, node))
        .collect::<Option<Vec<(Symbol, usize)>>>()
        .ok_or(Refusal(9))?;
    let mut rest = &named[..];
    let right = Term::read(&mut rest).ok_or(Refusal(10))?;
    if !rest.is_empty() {
        return Err(Refusal(10));
    }
    if (0..rank).any(|parameter| occurrences(&right, parameter) > 1) {
        return Err(Refusal(11));
    }
    Ok(Rule { rank, right })
}

/// What the node names and the rank of that, if it names anything in this rule.
fn name(alphabet: &Alphabet, lower: &[Rule], rank: usize, node: u8) -> Option<(Symbol, usize)> {
    let symbol = Symbol::read(node)?;
    let children = match symbol {
        Symbol::Terminal(terminal) => alphabet.rank(terminal)?,
        Symbol::Call(rule) => lower.get(rule)?.rank,
        Symbol::Parameter(parameter) => (parameter < rank).then_some(0)?,
    };
    Some((symbol, children))
}

fn occurrences(right: &Term, parameter: usize) -> usize {
    right.nodes().into_iter().filter(|node| node.is_parameter(parameter)).count()
}
