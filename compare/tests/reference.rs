//! The reference against itself: two ways to each meaning, over generated inputs.

use compare::generate::random::Random;
use compare::generate::{alphabets, automata, forms, sheets};
use compare::reference::alphabet::Alphabet;
use compare::reference::automaton::{Automaton, Transition};
use compare::reference::facts::Facts;
use compare::reference::form::Form;
use compare::reference::profile::Profiles;
use compare::reference::tree::Tree;
use compare::reference::{counts, label, relations, unfolding};

/// Each lawful form with its alphabet's bytes, where the largest count is small.
fn small_forms(cases: u64) -> impl Iterator<Item = (Vec<u8>, Form, Random)> {
    (0..cases).filter_map(|case| {
        let mut random = Random::of_case(11, case);
        let ranks = alphabets::alphabet(&mut random);
        let bytes = forms::form(&mut random, &ranks);
        let form = Form::read(&bytes).expect("a lawful form");
        let small = counts::of(&form).iter().all(|count| count.nodes < 200);
        small.then_some((ranks, form, random))
    })
}

#[test]
fn generated_sheets_are_lawful() {
    // The facts check that tree and mask come out the same in both ways of the reference.
    for case in 0..400 {
        let sheet = sheets::plan(&mut Random::of_case(3, case)).sheet();
        let facts = Facts::of(&sheet).unwrap_or_else(|refusal| panic!("{refusal:?}"));
        let profiles = Profiles::of(&facts.sheet.rules);
        for (position, terminal) in facts.tree.iter().flatten().enumerate().take(100) {
            assert_eq!(profiles.label(position as u64), *terminal);
        }
    }
}

#[test]
fn counts_are_those_of_what_rules_derive() {
    for (_, form, _) in small_forms(300) {
        for (number, count) in counts::of(&form).iter().enumerate() {
            let derived = unfolding::derive(&form, number);
            assert_eq!(count.nodes as usize, derived.iter().flatten().count());
            let hole = derived.iter().position(Option::is_none).unwrap_or(0);
            assert_eq!(count.before as usize, hole);
        }
    }
}

#[test]
fn labels_are_those_of_the_unfolded_tree() {
    for (_, form, _) in small_forms(300) {
        let counts = counts::of(&form);
        for (position, terminal) in unfolding::preorder(&form).into_iter().enumerate() {
            assert_eq!(label::at(&form, &counts, position as u64), terminal);
        }
    }
}

#[test]
fn relations_are_those_of_runs_over_what_rules_derive() {
    for (ranks, form, mut random) in small_forms(150) {
        let alphabet = Alphabet::read(&ranks).expect("a lawful alphabet");
        let automaton = automata::automaton(&mut random, &ranks);
        let mut automaton = Automaton::read(&alphabet, &automaton).expect("a lawful automaton");
        let entries = relations::of(&automaton, &form);
        // The open place is filled with a leaf of its own that takes the entered state only.
        let leaf = ranks.len() as u8;
        let wider = Alphabet::read(&[&ranks[..], &[0]].concat());
        let Ok(wider) = wider else { continue };
        for entered in 0..automaton.states {
            let open = Transition { terminal: leaf, target: entered, children: Vec::new() };
            automaton.transitions.push(open);
            for (number, entry) in entries.iter().enumerate() {
                let derived = unfolding::derive(&form, number);
                let filled: Vec<u8> = derived.iter().map(|node| node.unwrap_or(leaf)).collect();
                let tree = Tree::read(&wider, &filled).expect("one tree");
                let row = if form.rules[number].rank() == 0 { 0 } else { 8 * entered };
                assert_eq!(tree.masks(&automaton)[0], (entry >> row) as u8);
            }
            automaton.transitions.pop();
        }
    }
}

#[test]
fn towers_have_the_size_asked_for() {
    for height in [0_u128, 1, 5, 4095, (1 << 64) - 3, (1 << 64) - 2, 1 << 64] {
        let bytes = forms::tower(&mut Random::new(1), &[0, 1], height);
        let form = Form::read(&bytes).expect("a lawful form");
        let size = counts::of(&form)[form.start].nodes;
        assert_eq!(u128::from(size), (height + 1).min(u128::from(u64::MAX)));
    }
}
