//! Dropped arguments that become enormous trees.

use super::plan::RulePlan;
use super::random::Random;
use super::shapes::{last, rule};
use super::wide_shapes::{LEAF, SMALL};

/// A rule that drops one or both of its arguments, on a small tree and on an enormous one.
pub fn rules(random: &mut Random) -> Vec<RulePlan> {
    let (mut rules, large) = if random.one_in(2) { chain(random) } else { shared(random) };
    let place = random.below(2);
    let parameter = 0x80 + place as u8;
    let right_sides = [vec![parameter], vec![1, parameter], LEAF.to_vec(), SMALL.to_vec()];
    rules.push(rule(2, random.pick(&right_sides).as_slice()));
    let dropping = last(&rules);
    let beside = |kept: &[u8], other: &[u8]| match place {
        0 => [&[dropping], kept, other].concat(),
        _ => [&[dropping], other, kept].concat(),
    };
    let small = *random.pick(&[LEAF, SMALL]);
    let start = match random.below(3) {
        0 => beside(small, &large),
        // Kept by a call that is dropped itself, and dropped by one that is dropped.
        1 => beside(small, &beside(&large, LEAF)),
        _ => beside(small, &beside(LEAF, &large)),
    };
    rules.push(rule(0, &start));
    rules
}

/// So many times a rule may call the last one so often, with twelve nodes left.
fn levels(random: &mut Random, times: usize) -> usize {
    let most = (128 - 12) / (times + 1);
    if random.one_in(2) { most } else { random.between(1, most) }
}

/// Rules for very many h over a, and the term that becomes them.
fn chain(random: &mut Random) -> (Vec<RulePlan>, Vec<u8>) {
    let times = random.between(2, 4);
    let mut rules = vec![rule(1, &[1, 0x80])];
    for _ in 0..levels(random, times) {
        let nodes = [vec![last(&rules); times], vec![0x80]].concat();
        rules.push(rule(1, &nodes));
    }
    let term = vec![last(&rules), 0];
    (rules, term)
}

/// Rules for a tree with shared subtrees, and the term that becomes it.
fn shared(random: &mut Random) -> (Vec<RulePlan>, Vec<u8>) {
    let times = random.between(2, 4);
    let mut rules = vec![rule(0, LEAF)];
    for _ in 0..levels(random, times) {
        let nodes = [vec![times as u8], vec![last(&rules); times]].concat();
        rules.push(rule(0, &nodes));
    }
    let term = vec![last(&rules)];
    (rules, term)
}
