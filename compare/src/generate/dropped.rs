//! What stands in dropped arguments: terminals of its own, and damage.

use super::alphabets;
use super::damage;
use super::mixed;
use super::plan::Plan;
use super::random::Random;
use crate::reference::presence::Presence;
use crate::reference::sheet::Sheet;

/// The nodes in dropped arguments of a lawful plan, each with its rule's number and its place among
/// the rule's nodes; of a plan that is not lawful none.
pub fn places(plan: &Plan) -> Vec<(usize, usize)> {
    let Ok(sheet) = Sheet::read(&plan.sheet()) else {
        return Vec::new();
    };
    let presence = Presence::of(&sheet.rules);
    let mut places = Vec::new();
    for (number, rule) in sheet.rules.iter().enumerate() {
        let nodes = rule.right.nodes().into_iter().enumerate();
        let dropped = nodes.filter(|(_, node)| !presence.stands(&rule.right, node));
        places.extend(dropped.map(|(place, _)| (number, place)));
    }
    places
}

/// Gives dropped arguments terminals of their own, in some plans. The automaton has no transition
/// for these, unless it is drawn anew, and so no run on a dropped argument that derives one of
/// them. It may have a run on others: on a call of a rule that keeps the shared terminals, and
/// where the alphabet had no room.
pub fn estrange(random: &mut Random, plan: &mut Plan) {
    if random.one_in(3) {
        return;
    }
    let shared = plan.alphabet.clone();
    let mut own = [None; 5];
    for (number, place) in places(plan) {
        let node = &mut plan.rules[number].nodes[place];
        if let Some(&rank) = shared.get(usize::from(*node)) {
            let own = &mut own[usize::from(rank)];
            *node = own_terminal(&mut plan.alphabet, own, rank).unwrap_or(*node);
        }
    }
    if random.one_in(4) {
        plan.automaton = mixed::automaton(random, &plan.alphabet, &plan.rules);
    }
}

/// The terminal of this rank for dropped arguments, a new one if the alphabet has room for it.
fn own_terminal(alphabet: &mut Vec<u8>, own: &mut Option<u8>, rank: u8) -> Option<u8> {
    if own.is_none() && alphabet.len() < 32 {
        *own = Some(alphabet.len() as u8);
        alphabet.push(rank);
    }
    *own
}

/// Damage in a dropped argument of a lawful plan, if there is one: 9, 10 and 11 there, or so many
/// nodes that the sheet has over 128, or just not.
pub fn damage(random: &mut Random, plan: &mut Plan) -> bool {
    let places = places(plan);
    if places.is_empty() {
        return false;
    }
    let place = *random.pick(&places);
    match random.below(4) {
        0 => name_nothing(random, plan, place),
        1 => break_tree(random, plan, place),
        2 => damage::repeat_parameter(random, plan, &places),
        _ => lengthen(random, plan, place),
    }
    true
}

/// Puts a node there that names no terminal, no lower rule and no parameter.
fn name_nothing(random: &mut Random, plan: &mut Plan, (number, place): (usize, usize)) {
    let rule = &mut plan.rules[number];
    let (no_terminal, no_parameter) = (plan.alphabet.len() as u8, 0x80 + rule.rank);
    let itself = 0x40 + number as u8;
    let odd = [no_terminal, no_parameter, itself, 0x7F, 0x20, 0x3F, 0x84, 0xFF];
    rule.nodes[place] = *random.pick(&odd);
}

/// Takes a node out or puts it there twice.
fn break_tree(random: &mut Random, plan: &mut Plan, (number, place): (usize, usize)) {
    let nodes = &mut plan.rules[number].nodes;
    let node = nodes.remove(place);
    if random.one_in(2) {
        nodes.splice(place..place, [node; 2]);
    }
}

/// Puts terminals of rank 1 over a node until the sheet has about 128 nodes.
fn lengthen(random: &mut Random, plan: &mut Plan, (number, place): (usize, usize)) {
    let Some(&over) = alphabets::of_rank(&plan.alphabet, 1).first() else {
        return;
    };
    let more = random.between(127, 130).saturating_sub(plan.node_count());
    plan.rules[number].nodes.splice(place..place, vec![over; more]);
}
