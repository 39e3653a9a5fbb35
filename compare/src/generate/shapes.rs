//! Sheets of special shapes: large trees, deep calls, and sheets at their limits.

use super::automata;
use super::plan::{Plan, RulePlan};
use super::random::Random;
use crate::limits::MOST_TRANSITIONS;

/// a, h, f, g and k of ranks 0 to 4.
pub const ALPHABET: [u8; 5] = [0, 1, 2, 3, 4];

pub fn shape(random: &mut Random) -> Plan {
    let (rules, states) = match random.below(6) {
        0 => (chain(random), random.between(1, 8)),
        1 => (shared(random), random.between(1, 8)),
        2 => {
            let depth = random.between(1, 11);
            (nested(random, depth), random.between(1, 4))
        }
        3 => (right_and_left(random), random.between(1, 8)),
        4 => (one_rule(random), random.between(1, 8)),
        _ => return full(random),
    };
    let alphabet = ALPHABET.to_vec();
    let automaton = automata::automaton_of(random, &alphabet, states as u8);
    Plan { alphabet, rules, automaton }
}

pub fn rule(rank: u8, nodes: &[u8]) -> RulePlan {
    RulePlan { rank, nodes: nodes.to_vec() }
}

/// The call of the last of these rules.
pub fn last(rules: &[RulePlan]) -> u8 {
    0x40 + rules.len() as u8 - 1
}

/// h(y1), then each rule calls the last two to four times in a row.
fn chain(random: &mut Random) -> Vec<RulePlan> {
    let times = random.between(2, 4);
    let most = (128 - 4) / (times + 1);
    let mut rules = vec![rule(1, &[1, 0x80])];
    for _ in 0..random.between(1, most) {
        let mut nodes = vec![last(&rules); times];
        nodes.push(0x80);
        rules.push(rule(1, &nodes));
    }
    rules.push(rule(0, &[last(&rules), 0]));
    rules
}

/// Each rule is a terminal over two to four calls of the last: a tree with shared subtrees.
fn shared(random: &mut Random) -> Vec<RulePlan> {
    let times = random.between(2, 4);
    let most = (128 - 1) / (times + 1);
    let mut rules = vec![rule(0, &[0])];
    for _ in 0..random.between(1, most) {
        let mut nodes = vec![times as u8];
        nodes.extend(vec![last(&rules); times]);
        rules.push(rule(0, &nodes));
    }
    rules
}

/// Rules of rank 4, each over a call of the last in an argument of the last, with the parameters
/// in another order each time.
pub fn nested(random: &mut Random, depth: usize) -> Vec<RulePlan> {
    let mut parameters = [0x80, 0x81, 0x82, 0x83];
    let mut rules = vec![rule(4, &[4, 0x81, 0x80, 0x83, 0x82])];
    for _ in 0..depth {
        random.shuffle(&mut parameters);
        let [p, q, r, s] = parameters;
        let call = last(&rules);
        let nodes = match random.below(3) {
            0 => [call, call, p, q, r, 0, s, 0, 0].to_vec(),
            1 => [call, p, 1, call, 0, q, 0, r, 0, s].to_vec(),
            _ => [call, p, q, call, 0, r, 0, s, 1, 0].to_vec(),
        };
        rules.push(rule(4, &nodes));
    }
    rules.push(rule(0, &[last(&rules), 0, 0, 0, 0]));
    rules
}

/// f(y1, a) and f(a, y1), composed at random: nodes before and after the open place.
fn right_and_left(random: &mut Random) -> Vec<RulePlan> {
    let mut rules = vec![rule(1, &[2, 0x80, 0]), rule(1, &[2, 0, 0x80])];
    for _ in 0..random.between(1, 38) {
        let calls: Vec<u8> = (0..rules.len() as u8).map(|number| 0x40 + number).collect();
        let (outer, inner) = (*random.pick_late(&calls), *random.pick_late(&calls));
        rules.push(rule(1, &[outer, inner, 0x80]));
    }
    rules.push(rule(0, &[last(&rules), 0]));
    rules
}

/// One rule of 127 or 128 nodes.
fn one_rule(random: &mut Random) -> Vec<RulePlan> {
    let size = random.between(127, 128);
    vec![RulePlan { rank: 0, nodes: super::trees::tree(random, &ALPHABET, size) }]
}

/// The longest sheet: 32 terminals, 64 rules of two nodes, and as many transitions as
/// there may be.
fn full(random: &mut Random) -> Plan {
    let alphabet: Vec<u8> = (0..32).map(|terminal| terminal % 2).collect();
    let mut rules = vec![rule(1, &[1, 0x80])];
    while rules.len() < 63 {
        let number = random.below(rules.len());
        let called = if rules[number].rank == 1 { 0x40 + number as u8 } else { 3 };
        let leaf = *random.pick(&[0, 2, 30]);
        rules.push(if random.one_in(2) {
            rule(1, &[called, 0x80])
        } else {
            rule(0, &[called, leaf])
        });
    }
    rules.push(rule(0, &[31, 30]));
    let states = random.between(1, 8) as u8;
    let mut automaton = automata::automaton_of(random, &alphabet, states);
    while automaton.len() < 2 + 6 * MOST_TRANSITIONS {
        automaton.extend([0, 0, 0xFF, 0xFF, 0xFF, 0xFF]);
    }
    Plan { alphabet, rules, automaton }
}
