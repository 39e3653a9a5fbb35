//! Reading a sheet.

use super::alphabet::Alphabet;
use super::automaton::Automaton;
use super::form;
use super::preorder::is_one_tree;
use crate::refusal::{Answer, Refusal};

#[derive(Clone, Copy)]
pub struct Rule<'a> {
    pub rank: u8,
    pub nodes: &'a [u8],
}

pub struct Sheet<'a> {
    pub alphabet: Alphabet<'a>,
    pub rules: Vec<Rule<'a>>,
    /// The number of states.
    pub states: u8,
    pub finals: u8,
    /// The transitions as written, which only marking groups.
    pub transitions: &'a [[u8; 6]],
    /// The most rules of a form made of the sheet, and so the numbers that marking asks for.
    pub most_rules: usize,
    /// Whether every parameter occurs and no right side is a parameter alone.
    pub is_clean: bool,
}

impl<'a> Sheet<'a> {
    pub fn read(bytes: &'a [u8]) -> Answer<Self> {
        if !(12..=1832).contains(&bytes.len()) {
            return Err(Refusal(1));
        }
        let (alphabet, rules, automaton) = bodies(bytes).ok_or(Refusal(2))?;
        let alphabet = Alphabet::read(alphabet)?;
        let rules = split(rules)?;
        let (mut most_rules, mut is_clean) = (0, true);
        for (number, rule) in rules.iter().enumerate() {
            let checked = check(alphabet, &rules[..number], rule)?;
            most_rules += checked.most_rules;
            is_clean &= checked.is_clean;
        }
        if rules.last().is_none_or(|start| start.rank != 0) {
            return Err(Refusal(13));
        }
        let (finals, transitions) = Automaton::check(alphabet, automaton)?;
        Ok(Sheet {
            alphabet,
            rules,
            states: automaton[0],
            finals,
            transitions,
            most_rules,
            is_clean,
        })
    }

    /// The bytes that making the form asks for.
    pub fn form_need(&self) -> usize {
        form::length(self.alphabet, self.most_rules)
    }
}

fn bodies(bytes: &[u8]) -> Option<(&[u8], &[u8], &[u8])> {
    let (contents, rest) = bytes.split_first_chunk::<12>()?;
    let entry =
        |place: usize| usize::from(u16::from_le_bytes([contents[place], contents[place + 1]]));
    let (alphabet, rest) = rest.split_at_checked(entry(2))?;
    let (rules, automaton) = rest.split_at_checked(entry(6))?;
    let joined = entry(0) == 12
        && entry(4) == 12 + alphabet.len()
        && entry(8) == 12 + alphabet.len() + rules.len()
        && entry(10) == automaton.len();
    joined.then_some((alphabet, rules, automaton))
}

/// The rules: refusals 5 to 7.
fn split(body: &[u8]) -> Answer<Vec<Rule<'_>>> {
    let (rules, rest) = rules(body);
    if rules.is_empty() || !rest.is_empty() {
        return Err(Refusal(5));
    }
    let nodes: usize = rules.iter().map(|rule| rule.nodes.len()).sum();
    match (rules.len(), nodes) {
        (65.., _) => Err(Refusal(6)),
        (_, 129..) => Err(Refusal(7)),
        _ => Ok(rules),
    }
}

/// The whole rules of a body, and what is left of it.
pub fn rules(body: &[u8]) -> (Vec<Rule<'_>>, &[u8]) {
    let mut rules = Vec::new();
    let mut rest = body;
    while let [rank, count, behind @ ..] = rest
        && let Some((nodes, next)) = behind.split_at_checked(usize::from(*count))
    {
        rules.push(Rule { rank: *rank, nodes });
        rest = next;
    }
    (rules, rest)
}

/// What the check of a rule finds.
struct Checked {
    /// The rule's share of the sheet's.
    most_rules: usize,
    /// Whether every parameter occurs and not alone.
    is_clean: bool,
}

/// The share of a node that names something of this rank: of a terminal, of a call or of a
/// parameter.
fn share(node: u8, rank: usize) -> usize {
    match (node, rank) {
        (0x00..=0x1F, _) => 2,
        (0x40..=0x7F, 1..) => 4 * rank - 3,
        _ => 0,
    }
}

/// Refusals 8 to 11.
fn check(alphabet: Alphabet, lower: &[Rule], rule: &Rule) -> Answer<Checked> {
    if rule.rank > 4 {
        return Err(Refusal(8));
    }
    let rank = |node: u8| match node {
        0x00..=0x1F => alphabet.rank(node),
        0x40..=0x7F => lower.get(usize::from(node - 0x40)).map(|called| usize::from(called.rank)),
        _ => (0x80..0x80 + rule.rank).contains(&node).then_some(0),
    };
    let mut most_rules = 0;
    for &node in rule.nodes {
        most_rules += share(node, rank(node).ok_or(Refusal(9))?);
    }
    if !is_one_tree(rule.nodes.iter().filter_map(|&node| rank(node))) {
        return Err(Refusal(10));
    }
    let mut parameters = [0; 4];
    for node in rule.nodes.iter().filter(|&&node| node >= 0x80) {
        parameters[usize::from(node - 0x80)] += 1;
    }
    if parameters.iter().any(|&times| times > 1) {
        return Err(Refusal(11));
    }
    let all_occur = parameters[..usize::from(rule.rank)].iter().all(|&times| times == 1);
    let is_clean = all_occur && !matches!(rule.nodes, [0x80..=0x83]);
    Ok(Checked { most_rules, is_clean })
}
