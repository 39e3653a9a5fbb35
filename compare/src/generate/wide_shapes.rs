//! Sheets of special shapes whose rules leave out parameters or are one alone.

use super::dropped;
use super::enormous;
use super::mixed;
use super::plan::{Plan, RulePlan};
use super::random::Random;
use super::right_side::{Grower, Names};
use super::shapes::{ALPHABET, last, rule};
use crate::limits::MOST_TRANSITIONS;
use std::slice;

/// a, h(a) and f(a, h(a)).
pub const LEAF: &[u8] = &[0];
pub const SMALL: &[u8] = &[1, 0];
const BRANCHED: &[u8] = &[2, 0, 1, 0];

pub fn shape(random: &mut Random) -> Plan {
    let rules = match random.below(9) {
        0 => identities(random),
        1 | 2 => enormous::rules(random),
        3 | 4 => permuted(random),
        5 => carried(random),
        6 => lone_parameters(random),
        7 => droppers(random),
        _ => return full(random),
    };
    finished(random, rules)
}

/// The plan of rules over the common alphabet, with an automaton.
pub fn finished(random: &mut Random, rules: Vec<RulePlan>) -> Plan {
    let alphabet = ALPHABET.to_vec();
    let automaton = mixed::automaton(random, &alphabet, &rules);
    let mut plan = Plan { alphabet, rules, automaton };
    dropped::estrange(random, &mut plan);
    plan
}

/// A call with this argument at one place, and a at the others.
fn call_on(call: u8, rank: usize, place: usize, argument: &[u8]) -> Vec<u8> {
    let arguments = (0..rank).map(|other| if other == place { argument } else { LEAF });
    [&[call], arguments.collect::<Vec<_>>().concat().as_slice()].concat()
}

/// A lone parameter, then each rule calls the last one to four times in a row at that parameter:
/// all are identities, of very many calls.
fn identities(random: &mut Random) -> Vec<RulePlan> {
    let rank = random.between(1, 4);
    let place = random.below(rank);
    let times = random.between(1, 4);
    let parameter = 0x80 + place as u8;
    let mut rules = vec![rule(rank as u8, &[parameter])];
    let most = (128 - 1 - 8) / (times * rank + 1);
    for _ in 0..random.between(0, most) {
        let mut nodes = vec![parameter];
        for _ in 0..times {
            nodes = call_on(last(&rules), rank, place, &nodes);
        }
        rules.push(rule(rank as u8, &nodes));
    }
    let argument = *random.pick(&[LEAF, SMALL, BRANCHED]);
    let start = call_on(last(&rules), rank, place, argument);
    rules.push(rule(0, &start));
    rules
}

/// A terminal over some parameters, then each rule calls the last with its own parameters in
/// another order and some left out. The start's arguments all differ.
fn permuted(random: &mut Random) -> Vec<RulePlan> {
    let rank = *random.pick(&[2, 3, 3, 4, 4, 4]);
    let mut parameters: Vec<u8> = (0..rank as u8).map(|number| 0x80 + number).collect();
    random.shuffle(&mut parameters);
    let kept = random.between(0, rank);
    let lone = kept == 1 && random.one_in(2);
    let over: &[u8] = if lone { &[] } else { &[kept as u8] };
    let mut rules = vec![rule(rank as u8, &[over, &parameters[..kept]].concat())];
    for _ in 0..random.between(1, 12) {
        random.shuffle(&mut parameters);
        let mut nodes = vec![last(&rules)];
        for parameter in &parameters {
            nodes.extend(match random.below(16) {
                0 => LEAF,
                1 => SMALL,
                _ => slice::from_ref(parameter),
            });
        }
        rules.push(rule(rank as u8, &nodes));
    }
    let arguments = [LEAF, SMALL, BRANCHED, &[1, 1, 0]];
    let start = [&[last(&rules)], arguments[..rank].concat().as_slice()].concat();
    rules.push(rule(0, &start));
    rules
}

/// h over one of two parameters, then each rule calls the last on itself and hands both parameters
/// on: a large tree, and an argument that is handed down everywhere and stands nowhere.
fn carried(random: &mut Random) -> Vec<RulePlan> {
    let place = random.below(2);
    let (kept, other) = (0x80 + place as u8, 0x81 - place as u8);
    let pair = |call: u8, kept: &[u8], dropped: &[u8]| match place {
        0 => [&[call], kept, dropped].concat(),
        _ => [&[call], dropped, kept].concat(),
    };
    let mut rules = vec![rule(2, &[1, kept])];
    let dropped = *random.pick(&[LEAF, SMALL]);
    let most = (128 - 2 - 5) / (4 + dropped.len());
    let count = if random.one_in(2) { most } else { random.between(1, most) };
    for _ in 0..count {
        let call = last(&rules);
        let nodes = match random.below(2) {
            0 => pair(call, &pair(call, &[kept], dropped), &[other]),
            _ => pair(call, &pair(call, &[kept], &[other]), dropped),
        };
        rules.push(rule(2, &nodes));
    }
    let start = pair(last(&rules), LEAF, dropped);
    rules.push(rule(0, &start));
    rules
}

/// Lone parameters of each rank; rules whose arguments are lone parameters or calls of these; and a
/// start that comes down to one call.
fn lone_parameters(random: &mut Random) -> Vec<RulePlan> {
    let places = [1, 2, 3, 4].map(|rank| random.below(rank));
    let mut rules: Vec<RulePlan> = Vec::new();
    for (rank, place) in (1..).zip(places) {
        rules.push(rule(rank, &[0x80 + place as u8]));
    }
    let wrapped = |random: &mut Random, argument: &[u8]| {
        let rank = random.between(1, 4);
        call_on(0x40 + rank as u8 - 1, rank, places[rank - 1], argument)
    };
    for _ in 0..random.between(1, 3) {
        let rank = random.between(1, 4);
        // A terminal over its children, then the call of the last rule on its arguments.
        let (over, width) = match rules.len() {
            4 => (rank as u8, rank as u8),
            count => (last(&rules), rules[count - 1].rank),
        };
        let mut nodes = vec![over];
        for place in 0..width {
            let own = if place < rank as u8 { vec![0x80 + place] } else { LEAF.to_vec() };
            nodes.extend(if random.one_in(2) { wrapped(random, &own) } else { own });
        }
        rules.push(rule(rank as u8, &nodes));
    }
    let rank = usize::from(rules[rules.len() - 1].rank);
    let mut start = call_on(last(&rules), rank, random.below(rank), SMALL);
    for _ in 0..random.between(0, 4) {
        start = wrapped(random, &start);
    }
    rules.push(rule(0, &start));
    rules
}

/// A few small rules that leave out parameters, and a large start that calls them: dropped
/// arguments in dropped arguments.
fn droppers(random: &mut Random) -> Vec<RulePlan> {
    let mut names = Names::of(&ALPHABET);
    let mut rules = Vec::new();
    for _ in 0..random.between(1, 5) {
        let rank = random.between(1, 4);
        let parameter = 0x80 + random.below(rank) as u8;
        let right_sides = [vec![parameter], vec![1, parameter], LEAF.to_vec()];
        let dropping = rule(rank as u8, random.pick(&right_sides).as_slice());
        names.add_rule(rules.len(), &dropping);
        rules.push(dropping);
    }
    let most = random.between(20, 118);
    let start = Grower::new(random, &names, most).right_side(0);
    rules.push(start.unwrap_or_else(|| rule(0, LEAF)));
    rules
}

/// 64 rules and 128 nodes, most rules of one node: lone parameters of every rank and rules that
/// drop all arguments; and as many transitions as there may be.
fn full(random: &mut Random) -> Plan {
    let mut rules = vec![rule(1, &[0x80])];
    while rules.len() < 63 {
        let rank = random.between(1, 4);
        let parameter = 0x80 + random.below(rank) as u8;
        let single = rules[rules.len() - 1].rank == 1;
        let right = match random.below(8) {
            0 => LEAF.to_vec(),
            // Calls take nodes that the start then has not.
            1 if single && rules.len() < 40 => vec![last(&rules), parameter],
            _ => vec![parameter],
        };
        rules.push(rule(rank as u8, &right));
    }
    let left = 128 - rules.iter().map(|rule| rule.nodes.len()).sum::<usize>();
    let chain: Vec<u8> = (0..63).filter(|number| rules[usize::from(*number)].rank == 1).collect();
    let mut start = Vec::new();
    while start.len() < left - 1 {
        start.push(if random.one_in(3) { 1 } else { 0x40 + *random.pick(&chain) });
    }
    start.push(0);
    rules.push(rule(0, &start));
    let mut plan = finished(random, rules);
    while plan.automaton.len() < 2 + 6 * MOST_TRANSITIONS {
        plan.automaton.extend([0, 0, 0xFF, 0xFF, 0xFF, 0xFF]);
    }
    plan
}
