//! Lawful sheets with rules of all ranks, called or not.

use super::alphabets;
use super::automata;
use super::dropped;
use super::plan::{Plan, RulePlan};
use super::random::Random;
use super::right_side::{Grower, Names};

#[derive(Clone, Copy, PartialEq)]
pub enum Kind {
    /// Each parameter occurs once and none is a right side, as in every lawful sheet before R-3.
    Exact,
    /// Rules leave out some of their parameters or are one of them; some rules are of the other
    /// kind.
    Wide,
}

pub fn mixed(random: &mut Random, kind: Kind) -> Plan {
    let alphabet = alphabets::alphabet(random);
    let style = Style::draw(random);
    let rules = rules(random, &alphabet, &style, kind);
    let automaton = automaton(random, &alphabet, &rules);
    let mut plan = Plan { alphabet, rules, automaton };
    if kind == Kind::Wide {
        dropped::estrange(random, &mut plan);
    }
    plan
}

/// A lawful automaton. Theorem 1 takes every tuple of states, so high ranks seldom meet many
/// states.
pub fn automaton(random: &mut Random, alphabet: &[u8], rules: &[RulePlan]) -> Vec<u8> {
    match rules.iter().map(|rule| rule.rank).max() {
        Some(3 | 4) if !random.one_in(16) => {
            let states = random.between(1, 4) as u8;
            automata::automaton_of(random, alphabet, states)
        }
        _ => automata::automaton(random, alphabet),
    }
}

/// How many rules and nodes there may be, and how large and of which rank a rule is.
struct Style {
    rules: usize,
    nodes: usize,
    right_side: usize,
    rank: usize,
}

impl Style {
    fn draw(random: &mut Random) -> Style {
        let nodes = match random.below(6) {
            0 => random.between(1, 16),
            1 => random.between(1, 128),
            _ => 128,
        };
        let rules = match random.below(4) {
            0 => 64,
            1 => random.between(1, 3),
            _ => random.between(1, 24),
        };
        let right_side = match random.below(4) {
            0 => nodes,
            1 => random.between(1, 30),
            _ => random.between(2, 9),
        };
        Style { rules, nodes, right_side, rank: *random.pick(&[0, 1, 2, 3, 4, 4]) }
    }
}

fn rules(random: &mut Random, alphabet: &[u8], style: &Style, kind: Kind) -> Vec<RulePlan> {
    let mut names = Names::of(alphabet);
    let mut rules: Vec<RulePlan> = Vec::new();
    let mut left = style.nodes;
    for _ in 1..style.rules {
        let rule = match kind {
            Kind::Wide if !random.one_in(4) => wide_rule(random, &names, style),
            _ => exact_rule(random, &names, style),
        };
        let Some(rule) = rule else {
            continue;
        };
        // One node is kept for the start.
        if rule.nodes.len() < left {
            left -= rule.nodes.len();
            names.add_rule(rules.len(), &rule);
            rules.push(rule);
        }
    }
    let most = *random.pick(&[left, left.min(style.right_side), left.min(8)]);
    let start = Grower::new(random, &names, most).right_side(0);
    rules.push(start.unwrap_or_else(|| leaf(alphabet)));
    rules
}

/// A rule that has each of its parameters once.
fn exact_rule(random: &mut Random, names: &Names, style: &Style) -> Option<RulePlan> {
    let highest = style.rank.min(names.reach());
    let rank = if random.one_in(2) { highest } else { random.between(0, highest) };
    let most = random.between(1, style.right_side).max(2 * rank);
    Grower::new(random, names, most).right_side(rank)
}

/// A rule that has all of its parameters, some, one alone or none.
fn wide_rule(random: &mut Random, names: &Names, style: &Style) -> Option<RulePlan> {
    let highest = style.rank.max(1);
    let rank = if random.one_in(2) { highest } else { random.between(1, highest) };
    let mut parameters: Vec<u8> = (0..rank as u8).map(|number| 0x80 + number).collect();
    random.shuffle(&mut parameters);
    let written = match random.below(4) {
        0 => rank,
        1 => rank - 1,
        _ => random.between(0, rank),
    };
    // A lone parameter stands without a name.
    parameters.truncate(written.min(names.reach().max(1)));
    let most = random.between(1, style.right_side).max(2 * parameters.len());
    Grower::new(random, names, most).wide_right_side(rank, &parameters)
}

fn leaf(alphabet: &[u8]) -> RulePlan {
    RulePlan { rank: 0, nodes: alphabets::of_rank(alphabet, 0)[..1].to_vec() }
}
