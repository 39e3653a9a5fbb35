//! Sheets that ask for as much room as there can be or for very little, sheets that would ask for
//! much less if they were cleaned first, and sheets whose forms take nearly all the room.

use super::plan::{Plan, RulePlan};
use super::random::Random;
use super::shapes::{last, rule};
use super::wide_shapes::{LEAF, SMALL, finished};

pub fn shape(random: &mut Random) -> Plan {
    let rules = match random.below(7) {
        0 | 1 => nested(random),
        2 => handed_on(random),
        3 | 4 => never_called(random),
        5 => crowded(random),
        _ => without_parameters(random),
    };
    finished(random, rules)
}

/// A rule of rank 4 that keeps all of its parameters, some, one alone or none.
fn callee(random: &mut Random) -> RulePlan {
    let parameter = 0x80 + random.below(4) as u8;
    let right_sides = [
        LEAF.to_vec(),
        LEAF.to_vec(),
        vec![parameter],
        vec![1, parameter],
        vec![2, 0x82, 0x80],
        vec![4, 0x81, 0x80, 0x83, 0x82],
        vec![2, 2, 0x80, 0, 3, 1, 0x81, 0x83, 2, 1, 0x82, 0],
    ];
    rule(4, random.pick(&right_sides).as_slice())
}

/// So many calls of rank 4 in one another's arguments, with a at all other places.
fn calls_on_leaves(random: &mut Random, call: u8, times: usize) -> Vec<u8> {
    let mut nodes = LEAF.to_vec();
    for _ in 0..times {
        let leaves: Vec<usize> = (0..nodes.len()).filter(|&place| nodes[place] == 0).collect();
        let place = *random.pick(&leaves);
        nodes.splice(place..=place, [call, 0, 0, 0, 0]);
    }
    nodes
}

/// Some of these many, or all of them.
fn some_or_all(random: &mut Random, most: usize) -> usize {
    if random.one_in(2) { most } else { random.between(1, most) }
}

/// A start of calls of rank 4, for every four nodes of which 19 are counted. Where it has as many
/// calls as there can be, h stands over them until the sheet has 128 nodes.
fn nested(random: &mut Random) -> Vec<RulePlan> {
    let callee = callee(random);
    let left = 128 - callee.nodes.len();
    let most = (left - 1) / 4;
    let calls = some_or_all(random, most);
    let start = calls_on_leaves(random, 0x40, calls);
    let over = if calls == most { left - start.len() } else { 0 };
    vec![callee, rule(0, &[vec![1; over], start].concat())]
}

/// Rules of rank 4 that hand their parameters on to the last one: calls of rank 4 as written, which
/// cleaning takes down to the rank that the first rule keeps.
fn handed_on(random: &mut Random) -> Vec<RulePlan> {
    let mut rules = vec![callee(random)];
    let most = (128 - rules[0].nodes.len() - 5) / 5;
    for _ in 0..some_or_all(random, most) {
        let mut parameters = [0x80, 0x81, 0x82, 0x83];
        random.shuffle(&mut parameters);
        let nodes = [&[last(&rules)], &parameters[..]].concat();
        rules.push(rule(4, &nodes));
    }
    rules.push(rule(0, &[last(&rules), 0, 0, 0, 0]));
    rules
}

/// Rules with most of the sheet's nodes that are never called, and a small start.
fn never_called(random: &mut Random) -> Vec<RulePlan> {
    let mut rules = vec![callee(random)];
    let start = *random.pick(&[LEAF, SMALL, &[0x40, 0, 0, 0, 0]]);
    let mut left = 128 - rules[0].nodes.len() - start.len();
    while left > 4 && rules.len() < 63 {
        let calls = some_or_all(random, (left - 1) / 4);
        let nodes = calls_on_leaves(random, 0x40, calls);
        left -= nodes.len();
        rules.push(rule(0, &nodes));
    }
    rules.push(rule(0, start));
    rules
}

/// Three branches with h over each and over each parameter, called so often in one argument of
/// itself, the others being calls of rank 0: a rule is made for nearly all that is counted.
fn crowded(random: &mut Random) -> Vec<RulePlan> {
    let branches = rule(4, &[1, 2, 1, 0x80, 1, 2, 1, 0x81, 1, 2, 1, 0x82, 1, 0x83]);
    let mut nodes = vec![0x80];
    let most = (128 - branches.nodes.len() - 4) / 4;
    for _ in 0..some_or_all(random, most) {
        let mut arguments = vec![vec![0x41]; 3];
        arguments.insert(random.below(4), nodes);
        nodes = [vec![0x40], arguments.concat()].concat();
    }
    vec![branches, rule(0, LEAF), rule(1, &nodes), rule(0, &[0x42, 0x41])]
}

/// Rules of rank 0, each the call of the last one, which counts nothing, or a terminal over such
/// calls.
fn without_parameters(random: &mut Random) -> Vec<RulePlan> {
    let rank = *random.pick(&[0, 0, 1, 2, 4]);
    let mut rules = vec![rule(0, LEAF)];
    let most = (127 / (rank + 1)).min(63);
    for _ in 0..some_or_all(random, most) {
        let call = last(&rules);
        let bare = rank == 0 || random.one_in(2);
        let nodes = if bare { vec![call] } else { [vec![rank as u8], vec![call; rank]].concat() };
        rules.push(rule(0, &nodes));
    }
    rules
}
