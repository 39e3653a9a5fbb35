//! The sheets that are generated have tables of every kind that matters.

use compare::generate::random::Random;
use compare::generate::sheets;
use compare::reference::blackboard::TABLE;
use compare::reference::facts::Facts;
use compare::reference::presence::Presence;
use compare::reference::rules::Rule;
use compare::reference::term::Term;
use compare::reference::theorem;
use std::collections::BTreeMap;

/// How often something came up.
type Counts<T> = BTreeMap<T, u64>;

struct Generated {
    facts: Facts,
    presence: Presence,
}

impl Generated {
    fn of(case: u64) -> Generated {
        let sheet = sheets::plan(&mut Random::of_case(21, case)).sheet();
        let facts = Facts::of(&sheet).unwrap_or_else(|refusal| panic!("{refusal:?}"));
        let presence = Presence::of(&facts.sheet.rules);
        Generated { facts, presence }
    }

    fn states(&self) -> u8 {
        self.facts.sheet.automaton.states
    }

    /// Each rule with its number and its table.
    fn rules(&self) -> impl Iterator<Item = (usize, &Rule, &[u8])> {
        let tables = self.facts.blackboard.bytes.chunks(TABLE);
        let rules = self.facts.sheet.rules.iter().zip(tables).enumerate();
        rules.map(|(number, (rule, table))| (number, rule, table))
    }

    /// Whether the rule drops an argument without parameters and without a run.
    fn drops_without_run(&self, number: usize) -> bool {
        let right = &self.facts.sheet.rules[number].right;
        let nodes = right.nodes().into_iter();
        let mut dropped = nodes.filter(|node| !self.presence.stands(right, node));
        dropped.any(|node| is_closed(node) && self.mask(number, node) == 0)
    }

    /// The mask of a tree that calls rules below this one.
    fn mask(&self, number: usize, tree: &Term) -> u8 {
        let lower = &self.facts.sheet.rules[..number];
        let copied = lower.iter().map(|rule| (rule.rank, rule.right.clone()));
        let rules = copied.chain([(0, tree.clone())]).map(|(rank, right)| Rule { rank, right });
        theorem::mask(&self.facts.sheet.automaton, &rules.collect::<Vec<Rule>>())
    }
}

fn generated(cases: u64) -> impl Iterator<Item = Generated> {
    (0..cases).map(Generated::of)
}

fn is_closed(term: &Term) -> bool {
    !term.nodes().iter().any(|node| matches!(node, Term::Parameter(_)))
}

fn is_written(rule: &Rule, wanted: usize) -> bool {
    rule.right.nodes().iter().any(|node| node.is_parameter(wanted))
}

fn has_bits(table: &[u8]) -> bool {
    table.iter().any(|&set| set != 0)
}

/// The state at a parameter that a place of a table stands for.
fn digit(place: usize, parameter: usize) -> usize {
    place >> (3 * parameter) & 7
}

/// Whether the table is not what its relations between the root and each parameter say.
fn needs_tuples(rank: usize, table: &[u8]) -> bool {
    let mut relations = [[0; 8]; 4];
    for (place, set) in table.iter().enumerate() {
        for (parameter, relation) in relations[..rank].iter_mut().enumerate() {
            relation[digit(place, parameter)] |= set;
        }
    }
    let joined = |place: usize| {
        let sets = (0..rank).map(|parameter| relations[parameter][digit(place, parameter)]);
        sets.fold(0xFF, |all, set| all & set)
    };
    let places = 0..8_usize.pow(rank as u32);
    places.into_iter().any(|place| joined(place) != table[place])
}

/// The counts of all keys, each of which came up this often at least.
fn all<T: Ord + std::fmt::Debug>(counts: Counts<T>, keys: impl Iterator<Item = T>, least: u64) {
    for key in keys {
        assert!(counts.get(&key).is_some_and(|&times| times >= least), "{key:?} of {counts:?}");
    }
}

#[test]
fn rules_of_every_rank_with_every_number_of_states() {
    let mut counts = Counts::new();
    for sheet in generated(3000) {
        for (_, rule, table) in sheet.rules().filter(|(_, _, table)| has_bits(table)) {
            *counts.entry((rule.rank, sheet.states())).or_default() += 1;
            assert!(table.len() == TABLE);
        }
    }
    all(counts, (0..=4).flat_map(|rank| (1..=8).map(move |states| (rank, states))), 10);
}

#[test]
fn absent_parameters_of_rules_with_a_run() {
    let (mut by_place, mut by_states) = (Counts::new(), Counts::new());
    for sheet in generated(3000) {
        for (number, rule, _) in sheet.rules().filter(|(_, _, table)| has_bits(table)) {
            for parameter in (0..rule.rank).filter(|&it| !sheet.presence.is_present(number, it)) {
                let written = is_written(rule, parameter);
                *by_place.entry((rule.rank, parameter, written)).or_default() += 1;
                *by_states.entry((sheet.states(), written)).or_default() += 1;
            }
        }
    }
    let both = [false, true];
    let places = (1..=4).flat_map(|rank| (0..rank).map(move |parameter| (rank, parameter)));
    all(by_place, places.flat_map(|(rank, it)| both.map(|written| (rank, it, written))), 50);
    all(by_states, (1..=8).flat_map(|states| both.map(|written| (states, written))), 20);
}

#[test]
fn lone_parameters_with_fewer_states_than_eight() {
    let mut counts = Counts::new();
    for sheet in generated(1000).filter(|sheet| sheet.states() < 8) {
        for (_, rule, _) in sheet.rules() {
            if let Term::Parameter(parameter) = rule.right {
                *counts.entry((rule.rank, parameter)).or_default() += 1;
            }
        }
    }
    all(counts, (1..=4).flat_map(|rank| (0..rank).map(move |it| (rank, it))), 20);
}

#[test]
fn dropped_arguments_without_a_run_in_rules_with_one() {
    let mut counts = Counts::new();
    for sheet in generated(1000) {
        for (number, rule, table) in sheet.rules() {
            if has_bits(table) && sheet.drops_without_run(number) {
                *counts.entry(rule.rank).or_default() += 1;
            }
        }
    }
    all(counts, 0..=4, 20);
}

#[test]
fn tables_that_no_relations_per_parameter_give() {
    let mut counts = Counts::new();
    for sheet in generated(1000) {
        for (_, rule, table) in sheet.rules() {
            if rule.rank > 1 && needs_tuples(rule.rank, table) {
                *counts.entry((rule.rank, sheet.states() > 4)).or_default() += 1;
            }
        }
    }
    all(counts, (2..=4).flat_map(|rank| [false, true].map(|many| (rank, many))), 10);
}

#[test]
fn bits_for_every_state_at_every_parameter() {
    let mut counts = Counts::new();
    for sheet in generated(1000) {
        for (_, rule, table) in sheet.rules().filter(|(_, rule, _)| rule.rank == 4) {
            let places = (0..TABLE).filter(|&place| table[place] != 0);
            for (place, parameter) in places.flat_map(|it| (0..rule.rank).map(move |p| (it, p))) {
                *counts.entry((parameter, digit(place, parameter))).or_default() += 1;
            }
        }
    }
    all(counts, (0..4).flat_map(|parameter| (0..8).map(move |state| (parameter, state))), 50);
}

#[test]
fn rules_never_called_with_a_run_and_without() {
    let mut counts = Counts::new();
    for sheet in generated(1000) {
        let called = sheet.facts.sheet.called_from_start();
        for (_, rule, table) in sheet.rules().filter(|(number, _, _)| !called[*number]) {
            *counts.entry((rule.rank, has_bits(table))).or_default() += 1;
        }
    }
    all(counts, (0..=4).flat_map(|rank| [false, true].map(|some| (rank, some))), 5);
}
