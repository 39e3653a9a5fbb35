//! The sheets that are timed.

use crate::generate::automata;
use crate::generate::plan::Plan;
use crate::generate::random::Random;
use crate::generate::{shapes, sheets};
use crate::limits::MOST_TRANSITIONS;
use crate::reference::calls::joined;
use crate::reference::sheet::Sheet;
use crate::rows;

pub struct Subject {
    pub name: &'static str,
    pub sheet: Vec<u8>,
}

pub fn subjects() -> Vec<Subject> {
    let subject = |name, sheet| Subject { name, sheet };
    vec![
        subject("W", rows::sheet("K1 W")),
        subject("K7", rows::sheet("K7 h doubled ten times, on a")),
        subject("largest", largest()),
        subject("rank 4 nested", nested()),
        subject("forty rules", with_rules(&doubling(38))),
        subject("handed down", with_rules(&handed_down(24))),
        subject("chain of 4,096", with_rules(&chain())),
        subject("binary of 4,096", with_rules(&binary())),
    ]
}

/// 128 nodes in 16 rules or more, 8 states and as many transitions as there may be; of many such
/// sheets the one whose form may have most rules.
fn largest() -> Vec<u8> {
    let full = |case: u64| {
        let mut random = Random::of_case(1, case);
        let plan = sheets::exact(&mut random);
        let full = plan.node_count() == 128 && plan.rules.len() >= 16;
        full.then(|| widest(&mut random, plan))
    };
    let bound = |sheet: &Vec<u8>| Sheet::read(sheet).map_or(0, |sheet| sheet.rule_bound());
    (0..1000).filter_map(full).max_by_key(bound).expect("some sheet has 128 nodes")
}

/// Rules of rank 4, each calling the one before twice.
fn nested() -> Vec<u8> {
    let mut random = Random::new(4);
    let rules = shapes::nested(&mut random, 11);
    widest(&mut random, Plan { alphabet: vec![0, 1, 2, 3, 4], rules, automaton: Vec::new() })
}

/// The sheet with 8 states and as many transitions as there may be.
fn widest(random: &mut Random, plan: Plan) -> Vec<u8> {
    let mut automaton = automata::automaton_of(random, &plan.alphabet, 8);
    while automaton.len() < 2 + 6 * MOST_TRANSITIONS {
        let more = automata::automaton_of(random, &plan.alphabet, 8);
        automaton.extend(&more[2..]);
    }
    automaton.truncate(2 + 6 * MOST_TRANSITIONS);
    Plan { automaton, ..plan }.sheet()
}

/// W with other rules.
fn with_rules(rules: &[u8]) -> Vec<u8> {
    let w = Sheet::read(&rows::sheet("K1 W")).expect("a lawful sheet");
    joined(&[&w.alphabet_body, rules, &w.automaton_body])
}

/// Rule 0 is h(y1), each of these many more is the last called twice, and the start is on a.
fn doubling(times: u8) -> Vec<u8> {
    let mut rules = vec![1, 2, 2, 0x80];
    for rule in 0..times {
        rules.extend([1, 3, 0x40 + rule, 0x40 + rule, 0x80]);
    }
    rules.extend([0, 2, 0x40 + times, 0]);
    rules
}

/// Rule 0 is f(y1, a), each of these many more is the last called on the last, and the start is on
/// a. h(a) is handed down to every call and dropped.
fn handed_down(times: u8) -> Vec<u8> {
    let mut rules = vec![2, 3, 1, 0x80, 0];
    for rule in 0..times {
        rules.extend([2, 5, 0x40 + rule, 0x40 + rule, 0x80, 0, 0x81]);
    }
    rules.extend([0, 4, 0x40 + times, 0, 2, 0]);
    rules
}

/// 4,095 times h over a: one of each power of 2 from 11 to 0.
fn chain() -> Vec<u8> {
    let mut rules = doubling(11);
    rules.truncate(rules.len() - 4);
    rules.extend([0, 13]);
    rules.extend((0..12).rev().map(|power| 0x40 + power));
    rules.push(0);
    rules
}

/// h over the full binary tree of f and a with 4,095 nodes.
fn binary() -> Vec<u8> {
    let mut rules = vec![0, 1, 0];
    for rule in 0..11 {
        rules.extend([0, 3, 1, 0x40 + rule, 0x40 + rule]);
    }
    rules.extend([0, 2, 2, 0x40 + 11]);
    rules
}
