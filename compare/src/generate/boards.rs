//! Sheets for the tables of Theorem 1: a few rules of rank 3 or 4, and five states or more with few
//! transitions, so that the tables have few bits and these lie all over them.

use super::automata;
use super::dropped;
use super::plan::{Plan, RulePlan};
use super::random::Random;
use super::shapes::{ALPHABET, last, rule};

/// How many transitions each terminal has, from rank 0 to rank 4.
const TRANSITIONS: [usize; 5] = [2, 8, 8, 10, 12];

pub fn shape(random: &mut Random) -> Plan {
    let rank = *random.pick(&[3, 3, 4]);
    let mut rules = vec![over_parameters(random, rank)];
    for _ in 0..random.below(3) {
        let next = handed_on(random, last(&rules), rank);
        rules.push(next);
    }
    let start = [&[last(&rules)][..], &vec![0; rank.into()]].concat();
    rules.push(rule(0, &start));
    let mut plan = Plan { alphabet: ALPHABET.to_vec(), rules, automaton: automaton(random) };
    dropped::estrange(random, &mut plan);
    plan
}

/// A terminal over the parameters, of which one is left out at times.
fn over_parameters(random: &mut Random, rank: u8) -> RulePlan {
    let mut parameters = shuffled(random, rank);
    if random.one_in(3) {
        parameters.pop();
    }
    rule(rank, &[&[parameters.len() as u8], &parameters[..]].concat())
}

/// The call on the parameters in another order, with h over some of them and a in place of some.
fn handed_on(random: &mut Random, call: u8, rank: u8) -> RulePlan {
    let mut nodes = vec![call];
    for parameter in shuffled(random, rank) {
        match random.below(8) {
            0 => nodes.push(0),
            1 | 2 => nodes.extend([1, parameter]),
            _ => nodes.push(parameter),
        }
    }
    rule(rank, &nodes)
}

fn shuffled(random: &mut Random, rank: u8) -> Vec<u8> {
    let mut parameters: Vec<u8> = (0..rank).map(|number| 0x80 + number).collect();
    random.shuffle(&mut parameters);
    parameters
}

fn automaton(random: &mut Random) -> Vec<u8> {
    let states = random.between(5, 8) as u8;
    let mut automaton = vec![states, 1];
    for (terminal, times) in TRANSITIONS.into_iter().enumerate() {
        for _ in 0..times {
            automaton.extend(automata::transition_of(random, &ALPHABET, terminal, states));
        }
    }
    automaton
}
