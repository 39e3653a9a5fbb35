//! Damaged sheets: in the bytes, and in the parts with contents that fit.

use super::alphabets;
use super::automata;
use super::bytes;
use super::dropped;
use super::plan::{Plan, RulePlan};
use super::random::Random;
use crate::reference::calls::joined;

/// A sheet with one or more things wrong, as a rule: which refusal comes first then matters. Often
/// only what is dropped is damaged.
pub fn damaged(random: &mut Random, plan: &Plan) -> Vec<u8> {
    let mut plan = plan.clone();
    if random.one_in(3) && dropped::damage(random, &mut plan) {
        return plan.sheet();
    }
    for _ in 0..random.between(0, 3) {
        damage_part(random, &mut plan);
    }
    match random.below(10) {
        0 => too_short_or_long(random, &plan),
        1 | 2 => bytes::damaged(random, &plan.sheet()),
        3 => wrong_contents(random, &plan),
        4 => rules_cut(random, &plan),
        _ => plan.sheet(),
    }
}

/// Random bytes, some with contents that fit their length.
pub fn noise(random: &mut Random) -> Vec<u8> {
    if random.one_in(3) {
        let length = random.below(2000);
        return random.bytes(length);
    }
    let [alphabet, rules, automaton] = [40, 80, 60].map(|most| {
        let length = random.below(most);
        random.bytes(length)
    });
    let alphabet: Vec<u8> = alphabet.into_iter().map(|byte| byte % 5).collect();
    joined(&[&alphabet, &rules, &automaton])
}

fn too_short_or_long(random: &mut Random, plan: &Plan) -> Vec<u8> {
    let mut sheet = plan.sheet();
    let length = *random.pick(&[0, 1, 11, 12, 13, 1831, 1832, 1833, 1834, 4000]);
    sheet.resize(length, random.byte());
    sheet
}

fn wrong_contents(random: &mut Random, plan: &Plan) -> Vec<u8> {
    let mut sheet = plan.sheet();
    for _ in 0..random.between(1, 2) {
        let place = random.below(12);
        sheet[place] = match random.below(3) {
            0 => random.byte(),
            1 => sheet[place].wrapping_add(1),
            _ => sheet[place].wrapping_sub(1),
        };
    }
    sheet
}

/// Rules that do not end at a rule's end, or none.
fn rules_cut(random: &mut Random, plan: &Plan) -> Vec<u8> {
    let mut body = plan.rules_body();
    match random.below(4) {
        0 => body.clear(),
        1 => body.push(random.byte()),
        2 => body = bytes::damaged(random, &body),
        _ => body.truncate(body.len() - 1),
    }
    joined(&[&plan.alphabet, &body, &plan.automaton])
}

fn damage_part(random: &mut Random, plan: &mut Plan) {
    match random.below(10) {
        0 if !plan.alphabet.is_empty() => {
            plan.alphabet = alphabets::damaged(random, &plan.alphabet);
        }
        1 if plan.automaton.len() >= 2 => {
            plan.automaton = automata::damaged(random, &plan.automaton);
        }
        2 => too_many(random, plan),
        3 => plan.rules.truncate(random.between(1, plan.rules.len())),
        4 => repeat_parameter_anywhere(random, plan),
        5 => {
            dropped::damage(random, plan);
        }
        _ => {
            let number = random.below(plan.rules.len());
            damage_rule(random, &mut plan.rules[number]);
        }
    }
}

/// Over 64 rules or over 128 nodes, or just not.
fn too_many(random: &mut Random, plan: &mut Plan) {
    let nodes = alphabets::of_rank(&plan.alphabet, 0).into_iter().take(1).collect();
    let leaf = RulePlan { rank: 0, nodes };
    if random.one_in(2) {
        let count = random.between(63, 66);
        while plan.rules.len() < count {
            plan.rules.insert(0, leaf.clone());
        }
    } else {
        let wanted = random.between(127, 130);
        let more = wanted.saturating_sub(plan.node_count());
        if let Some(rule) = plan.rules.last_mut() {
            rule.nodes.resize(rule.nodes.len() + more, 0);
        }
    }
}

fn repeat_parameter_anywhere(random: &mut Random, plan: &mut Plan) {
    let nodes_of = |number: usize| (0..plan.rules[number].nodes.len()).map(move |at| (number, at));
    let places: Vec<(usize, usize)> = (0..plan.rules.len()).flat_map(nodes_of).collect();
    repeat_parameter(random, plan, &places);
}

/// Puts a parameter that a rule has over one of these leaves of the rule, if there is one.
pub fn repeat_parameter(random: &mut Random, plan: &mut Plan, places: &[(usize, usize)]) {
    let others = |&(number, place): &(usize, usize)| {
        let nodes = plan.rules[number].nodes.iter().enumerate();
        let is_other = move |(at, node): &(usize, &u8)| *at != place && **node >= 0x80;
        nodes.filter(is_other).map(|(_, node)| *node).collect::<Vec<u8>>()
    };
    let is_leaf = |&(number, place): &(usize, usize)| {
        let node = plan.rules[number].nodes[place];
        let rank_0 = |rule: &RulePlan| rule.rank == 0;
        match node {
            0x00..=0x1F => plan.alphabet.get(usize::from(node)) == Some(&0),
            0x40..=0x7F => plan.rules.get(usize::from(node - 0x40)).is_some_and(rank_0),
            _ => true,
        }
    };
    let fits = |place: &&(usize, usize)| is_leaf(place) && !others(place).is_empty();
    let fitting: Vec<&(usize, usize)> = places.iter().filter(fits).collect();
    if !fitting.is_empty() {
        let &(number, place) = *random.pick(&fitting);
        let parameter = *random.pick(&others(&(number, place)));
        plan.rules[number].nodes[place] = parameter;
    }
}

fn damage_rule(random: &mut Random, rule: &mut RulePlan) {
    let place = random.below(rule.nodes.len().max(1));
    match random.below(8) {
        0 => rule.rank = *random.pick(&[5, 6, 0xFF]),
        1 => rule.rank = random.between(0, 4) as u8,
        2 => *rule = lone_parameter(random),
        3 => rule.nodes.clear(),
        4 => rule.nodes.push(*random.pick(&[0, 0x40, 0x80])),
        5 if !rule.nodes.is_empty() => {
            rule.nodes.remove(place);
        }
        _ if !rule.nodes.is_empty() => {
            let odd = [0x1F, 0x20, 0x3F, 0x40, 0x7F, 0x80, 0x81, 0x83, 0x84, 0xFF, 0, 1];
            rule.nodes[place] = *random.pick(&odd);
        }
        _ => {}
    }
}

/// A lone parameter, often of another rank than the rule has that it stands for.
fn lone_parameter(random: &mut Random) -> RulePlan {
    let rank = random.between(1, 4);
    RulePlan { rank: rank as u8, nodes: vec![0x80 + random.below(rank) as u8] }
}
