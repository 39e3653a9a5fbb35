//! The sheets that are generated have rules of the wider kind in every way that matters.

use compare::generate::plan::Plan;
use compare::generate::random::Random;
use compare::generate::sheets;
use compare::reference::facts::{Facts, SMALL};
use compare::reference::presence::Presence;
use compare::reference::profile::Profiles;
use compare::reference::rules::Rule;
use compare::reference::term::Term;
use compare::reference::theorem;
use std::collections::BTreeSet;

struct Generated {
    plan: Plan,
    facts: Facts,
    presence: Presence,
}

impl Generated {
    fn of(case: u64) -> Generated {
        let plan = sheets::plan(&mut Random::of_case(8, case));
        let facts = Facts::of(&plan.sheet()).unwrap_or_else(|refusal| panic!("{refusal:?}"));
        let presence = Presence::of(&facts.sheet.rules);
        Generated { plan, facts, presence }
    }

    fn rules(&self) -> &[Rule] {
        &self.facts.sheet.rules
    }

    /// The nodes of all right sides that stand in dropped arguments, or the others.
    fn nodes(&self, kept: bool) -> Vec<&Term> {
        self.rules().iter().flat_map(|rule| self.nodes_of(rule, kept)).collect()
    }

    fn nodes_of<'r>(&self, rule: &'r Rule, kept: bool) -> Vec<&'r Term> {
        let nodes = rule.right.nodes().into_iter();
        nodes.filter(|node| self.presence.stands(&rule.right, node) == kept).collect()
    }

    fn drops(&self) -> bool {
        !self.nodes(false).is_empty()
    }

    /// What the start drops, in rules that have it for their start.
    fn dropped_by_start(&self) -> Vec<Vec<Rule>> {
        let (start, lower) = self.rules().split_last().expect("a sheet has a rule");
        let with = |node: &Term| {
            let copied = lower.iter().map(|rule| (rule.rank, rule.right.clone()));
            let started = copied.chain([(0, node.clone())]);
            started.map(|(rank, right)| Rule { rank, right }).collect()
        };
        self.nodes_of(start, false).into_iter().map(with).collect()
    }

    /// Through how many callees a parameter is absent: none where it is not written.
    fn depth(&self, rule: usize, parameter: usize) -> usize {
        self.depth_in(&self.rules()[rule].right, parameter).unwrap_or(0)
    }

    fn depth_in(&self, term: &Term, parameter: usize) -> Option<usize> {
        let (place, child) = term
            .children()
            .iter()
            .enumerate()
            .find(|(_, child)| child.nodes().iter().any(|node| node.is_parameter(parameter)))?;
        match term {
            Term::Call(called, _) if !self.presence.is_present(*called, place) => {
                Some(1 + self.depth(*called, place))
            }
            _ => self.depth_in(child, parameter),
        }
    }

    fn deepest(&self) -> usize {
        let absent = |number: usize| {
            let parameters = 0..self.rules()[number].rank;
            parameters.filter(move |&parameter| !self.presence.is_present(number, parameter))
        };
        let numbers = 0..self.rules().len();
        let depths = numbers.flat_map(|number| absent(number).map(move |it| (number, it)));
        depths.map(|(number, it)| self.depth(number, it)).max().unwrap_or(0)
    }
}

fn generated(cases: u64) -> impl Iterator<Item = Generated> {
    (0..cases).map(Generated::of)
}

fn written(rule: &Rule) -> usize {
    let nodes = rule.right.nodes();
    (0..rule.rank).filter(|&it| nodes.iter().any(|node| node.is_parameter(it))).count()
}

#[test]
fn lone_parameters_and_parameters_left_out() {
    let (mut lone, mut left) = (BTreeSet::new(), BTreeSet::new());
    for sheet in generated(1000) {
        for rule in sheet.rules() {
            left.insert((rule.rank, written(rule)));
            if let Term::Parameter(parameter) = rule.right {
                lone.insert((rule.rank, parameter));
            }
        }
    }
    let pairs =
        |low: usize| (1..=4).flat_map(move |rank| (0..rank + low).map(move |it| (rank, it)));
    assert_eq!(lone, pairs(0).collect());
    assert_eq!(left, pairs(1).chain([(0, 0)]).collect());
}

#[test]
fn parameters_absent_through_callees() {
    let depths: BTreeSet<usize> = generated(1000).map(|sheet| sheet.deepest()).collect();
    assert!((0..=8).all(|depth| depths.contains(&depth)), "{depths:?}");
}

#[test]
fn enormous_dropped_arguments() {
    let size = |rules: Vec<Rule>| Profiles::of(&rules).whole().length;
    let largest = |sheet: Generated| sheet.dropped_by_start().into_iter().map(size).max();
    let sizes: Vec<u64> = generated(1000).filter_map(largest).collect();
    assert!(sizes.iter().filter(|&&size| size > 1 << 40).count() > 5);
    assert!(sizes.iter().filter(|&&size| size < 100).count() > 100);
}

#[test]
fn dropped_arguments_without_a_run_beside_trees_with_one() {
    let without_run = |sheet: &Generated| {
        let automaton = &sheet.facts.sheet.automaton;
        let mut dropped = sheet.dropped_by_start().into_iter();
        sheet.facts.mask != 0 && dropped.any(|rules| theorem::mask(automaton, &rules) == 0)
    };
    assert!(generated(1000).filter(without_run).count() > 50);
}

#[test]
fn dropped_arguments_in_dropped_arguments_and_rules_called_there_only() {
    let (mut nested, mut called_there, mut all_called) = (0, 0, 0);
    for sheet in generated(1000) {
        let dropped = sheet.nodes(false);
        let drops = |node: &&&Term| match node {
            Term::Call(called, arguments) => {
                (0..arguments.len()).any(|place| !sheet.presence.is_present(*called, place))
            }
            _ => false,
        };
        nested += u64::from(dropped.iter().any(|node| drops(&node)));
        let calls = |nodes: Vec<&Term>| {
            let called = |node: &Term| match node {
                Term::Call(called, _) => Some(*called),
                _ => None,
            };
            nodes.into_iter().filter_map(called).collect::<BTreeSet<usize>>()
        };
        called_there += u64::from(!calls(dropped).is_subset(&calls(sheet.nodes(true))));
        let every = sheet.presence.every_rule_is_called(sheet.rules());
        all_called += u64::from(every && sheet.drops());
    }
    assert!(
        nested > 50 && called_there > 50 && all_called > 50,
        "{nested} {called_there} {all_called}"
    );
}

#[test]
fn sheets_at_their_limits_and_trees_of_every_size() {
    let (mut rules, mut nodes, mut large, mut small) = (0, 0, 0, 0);
    for sheet in generated(1000).filter(Generated::drops) {
        rules += u64::from(sheet.plan.rules.len() == 64);
        nodes += u64::from(sheet.plan.node_count() == 128);
        large += u64::from(sheet.facts.whole.length > SMALL);
        small += u64::from(sheet.facts.whole.length == 1);
    }
    assert!(rules > 5 && nodes > 20 && large > 10 && small > 50, "{rules} {nodes} {large} {small}");
}

#[test]
fn the_old_kind_is_as_frequent() {
    let is_old = |sheet: &Generated| sheet.rules().iter().all(|rule| written(rule) == rule.rank);
    let old = generated(1000).filter(is_old).count();
    assert!((400..700).contains(&old), "{old}");
}
