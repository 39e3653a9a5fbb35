//! The faults of rules that leave out parameters or are one alone.

use crate::engine::{Fault, Planted, bodies};
use compare::calls::Engine;
use compare::generate::dropped::places;
use compare::generate::plan::{Plan, RulePlan};
use compare::idiomatic::{self, Idiomatic, form_by, parameters};
use compare::reference::head::LONGEST_FORM;
use compare::reference::presence::Presence;
use compare::reference::rules::Rule;
use compare::reference::sheet::Sheet;
use compare::reference::term::Term;
use compare::reference::theorem;

impl Planted {
    /// The sheet that this engine takes for the given one, if it is another.
    pub fn wide_as_read(&self, sheet: &[u8]) -> Option<Vec<u8>> {
        let code = match self.fault {
            Fault::RenumberedByAppearance | Fault::FirstArgumentsKept => 0,
            Fault::DroppedNodesNotCounted => 7,
            Fault::DroppedNamesNotChecked => 9,
            Fault::DroppedTreesNotChecked => 10,
            Fault::RepeatedAfterCleaning => 11,
            _ => return None,
        };
        if Idiomatic.make_form(sheet, &mut [0; LONGEST_FORM], &mut 0) != code {
            return None;
        }
        match self.fault {
            Fault::RenumberedByAppearance => Some(renumbered(sheet, by_appearance)),
            Fault::FirstArgumentsKept => Some(renumbered(sheet, kept_first)),
            Fault::DroppedNodesNotCounted => mended(sheet, |nodes, place, _| {
                nodes.drain(place..nodes.len().min(place + 2));
            }),
            Fault::DroppedTreesNotChecked => mended(sheet, Vec::insert).or_else(|| {
                mended(sheet, |nodes, place, _| {
                    nodes.remove(place);
                })
            }),
            _ => mended(sheet, |nodes, place, leaf| nodes[place] = leaf),
        }
    }

    /// The refusal of a lawful sheet that this engine does not take.
    pub fn wide_refusal(&self, sheet: &[u8]) -> Option<u8> {
        let is_lone = |rule: &Rule| matches!(rule.right, Term::Parameter(_));
        let leaves_out = |rule: &Rule| (0..rule.rank).any(|wanted| !is_written(rule, wanted));
        let any = |is_wrong: &dyn Fn(&Rule) -> bool| {
            Sheet::read(sheet).is_ok_and(|sheet| sheet.rules.iter().any(is_wrong))
        };
        match self.fault {
            Fault::LoneStillRefused => any(&is_lone).then_some(12),
            Fault::LoneOfRank1Only => any(&|rule| is_lone(rule) && rule.rank > 1).then_some(12),
            Fault::LeftOutStillRefused => any(&leaves_out).then_some(11),
            _ => None,
        }
    }

    /// Makes the form anew where this engine's cleaning takes too many parameters for present: all
    /// that are written, also those handed to a rule that drops them, or even those left out. Their
    /// arguments are kept and get rules of the form, and the tree is the same.
    pub fn spoil_wide_form(&self, sheet: &[u8], form: &mut [u8], written: &mut usize) {
        let present_in: fn(&idiomatic::Rule, &[u8]) -> u8 = match self.fault {
            Fault::PresentAsWritten => |rule, _| parameters(rule.nodes),
            Fault::RuleForDropped => |rule, _| (1 << rule.rank) - 1,
            _ => return,
        };
        *written = form_by(sheet, present_in, form).expect("a form was made of the sheet");
    }

    /// Whether this engine finds no run, though there is one.
    pub fn misses_run(&self, sheet: &[u8]) -> bool {
        self.has(Fault::RunOfDroppedAsked) && is_dropped_without_run(sheet)
    }
}

fn is_written(rule: &Rule, wanted: usize) -> bool {
    rule.right.nodes().iter().any(|node| node.is_parameter(wanted))
}

/// The parts of a sheet whose contents join and whose rules end where a rule ends.
fn parsed(sheet: &[u8]) -> Plan {
    let [alphabet, mut body, automaton] = bodies(sheet);
    let mut rules = Vec::new();
    while let [rank, count, behind @ ..] = body {
        let (nodes, rest) = behind.split_at(usize::from(*count));
        rules.push(RulePlan { rank: *rank, nodes: nodes.to_vec() });
        body = rest;
    }
    Plan { alphabet: alphabet.to_vec(), rules, automaton: automaton.to_vec() }
}

/// The sheet after a change at a place where then, in a lawful sheet, a dropped argument lies. The
/// change is given a terminal of rank 0.
fn mended(sheet: &[u8], change: impl Fn(&mut Vec<u8>, usize, u8)) -> Option<Vec<u8>> {
    let plan = parsed(sheet);
    let leaf = plan.alphabet.iter().position(|&rank| rank == 0)? as u8;
    for number in 0..plan.rules.len() {
        for place in 0..plan.rules[number].nodes.len() {
            let mut changed = plan.clone();
            change(&mut changed.rules[number].nodes, place, leaf);
            if places(&changed).contains(&(number, place)) {
                return Some(changed.sheet());
            }
        }
    }
    None
}

/// The sheet with other numbers for the parameters of each rule that drops some. The numbers follow
/// from the rank and from the parameters that are left, in the order they appear.
fn renumbered(sheet: &[u8], numbers: fn(u8, &[u8]) -> Vec<u8>) -> Vec<u8> {
    let mut plan = parsed(sheet);
    let dropped = places(&plan);
    for (number, rule) in plan.rules.iter_mut().enumerate() {
        let nodes = rule.nodes.iter().enumerate();
        let left: Vec<u8> = nodes
            .filter(|(place, node)| **node >= 0x80 && !dropped.contains(&(number, *place)))
            .map(|(_, node)| node - 0x80)
            .collect();
        if left.len() < usize::from(rule.rank) {
            let numbers = numbers(rule.rank, &left);
            for node in rule.nodes.iter_mut().filter(|node| **node >= 0x80) {
                *node = 0x80 + numbers[usize::from(*node - 0x80)];
            }
        }
    }
    plan.sheet()
}

/// Those that are left exchange their numbers, so that they appear in order.
fn by_appearance(rank: u8, left: &[u8]) -> Vec<u8> {
    let mut sorted = left.to_vec();
    sorted.sort_unstable();
    let mut numbers: Vec<u8> = (0..rank).collect();
    for (old, new) in left.iter().zip(sorted) {
        numbers[usize::from(*old)] = new;
    }
    numbers
}

/// Those that are left get the first numbers.
fn kept_first(rank: u8, left: &[u8]) -> Vec<u8> {
    let mut order: Vec<u8> = (0..rank).collect();
    order.sort_by_key(|number| !left.contains(number));
    let mut numbers = vec![0; usize::from(rank)];
    for (new, old) in (0..).zip(order) {
        numbers[usize::from(old)] = new;
    }
    numbers
}

/// Whether there is no run on something that the start drops.
fn is_dropped_without_run(sheet: &[u8]) -> bool {
    let Ok(Sheet { mut rules, automaton, .. }) = Sheet::read(sheet) else { return false };
    let presence = Presence::of(&rules);
    let Some(start) = rules.pop() else { return false };
    let nodes = start.right.nodes().into_iter();
    for node in nodes.filter(|node| !presence.stands(&start.right, node)) {
        rules.push(Rule { rank: 0, right: node.clone() });
        if theorem::mask(&automaton, &rules) == 0 {
            return true;
        }
        rules.pop();
    }
    false
}
