//! R-3 by the reference: its examples, and what of a sheet stands in the tree.

use compare::generate::random::Random;
use compare::generate::sheets;
use compare::harness::named_wide::{WIDE, enormous, long, sheet};
use compare::hex::bytes;
use compare::reference::derivation;
use compare::reference::facts::{Facts, SMALL};
use compare::reference::making;
use compare::reference::presence::Presence;
use compare::reference::profile::Profiles;
use compare::reference::program::line;
use compare::reference::rules::Rule;
use compare::reference::sheet::Sheet;
use compare::reference::term::Term;
use compare::refusal::Refusal;

/// One state that is final, and a to it.
const LEAVES: &str = "01 01, 00 00 FF FF FF FF";

fn facts(rules: &str) -> Facts {
    Facts::of(&sheet(rules, LEAVES)).unwrap_or_else(|refusal| panic!("{rules}: {refusal:?}"))
}

#[test]
fn the_examples() {
    for (rules, automaton, wanted) in WIDE {
        assert_eq!(line(&sheet(rules, automaton)), wanted, "{rules}");
    }
}

#[test]
fn nodes_are_counted_as_written() {
    let longest = facts(&long(128));
    assert_eq!((longest.sheet.node_count(), longest.whole.length), (128, 1));
    assert_eq!((longest.sheet.form_need(), longest.sheet.relations_need()), (3092, 257));
    assert_eq!(Facts::of(&sheet(&long(129), LEAVES)).err(), Some(Refusal(7)));
}

#[test]
fn what_is_dropped_may_be_enormous() {
    let facts = facts(&enormous());
    assert_eq!((facts.sheet.node_count(), facts.mask, facts.tree), (127, 1, Some(vec![0])));
}

#[test]
fn one_node_may_take_very_many_calls() {
    let doubled = (0..40).map(|rule| format!("01 03 {0:02X} {0:02X} 80, ", 0x40 + rule));
    let facts = facts(&format!("01 01 80, {}00 02 68 00", doubled.collect::<String>()));
    assert_eq!((facts.mask, facts.tree), (1, Some(vec![0])));
}

/// The places in a rule's right side of the nodes that stand in what it derives.
fn standing(rules: &str, number: usize) -> Vec<usize> {
    let rules = Sheet::read(&sheet(rules, LEAVES)).expect("a lawful sheet").rules;
    let (presence, right) = (Presence::of(&rules), &rules[number].right);
    let nodes = right.nodes().into_iter().enumerate();
    nodes.filter(|(_, node)| presence.stands(right, node)).map(|(place, _)| place).collect()
}

#[test]
fn nodes_that_stand_in_the_tree() {
    // Rule 0 keeps its second argument, rule 1 its first, which it hands on as the second.
    let rules = "02 01 81, 02 05 40 02 81 02 80, 00 07 41 40 00 00 01 00 00";
    assert_eq!(standing(rules, 1), [0, 3, 4]);
    assert_eq!(standing(rules, 2), [0, 1, 3]);
    assert_eq!(facts(rules).tree, Some(vec![2, 0]));
}

/// Terminals from here on are in no alphabet.
const OWN: u8 = 32;

/// The rule and those below it, with a start that calls it on terminals of its own.
fn started(rules: &[Rule], number: usize) -> Vec<Rule> {
    let own = |parameter: usize| Term::Terminal(OWN + parameter as u8, Vec::new());
    let start = Term::Call(number, (0..rules[number].rank).map(own).collect());
    let copied = rules[..=number].iter().map(|rule| (rule.rank, rule.right.clone()));
    copied.chain([(0, start)]).map(|(rank, right)| Rule { rank, right }).collect()
}

#[test]
fn parameters_are_present_where_full_substitution_leaves_them() {
    let mut found = [0; 2];
    for case in 0..300 {
        let plan = sheets::plan(&mut Random::of_case(3, case));
        let rules = Sheet::read(&plan.sheet()).expect("a lawful sheet").rules;
        let presence = Presence::of(&rules);
        for (number, rule) in rules.iter().enumerate() {
            let started = started(&rules, number);
            if Profiles::of(&started).whole().length > SMALL {
                continue;
            }
            let tree = derivation::tree(&started).preorder();
            for parameter in 0..rule.rank {
                let is_left = tree.contains(&(OWN + parameter as u8));
                assert_eq!(presence.is_present(number, parameter), is_left);
                found[usize::from(is_left)] += 1;
            }
        }
    }
    assert!(found.iter().all(|&times| times > 1000), "{found:?}");
}

fn calls_every_rule(rules: &str) -> bool {
    let rules = facts(rules).sheet.rules;
    Presence::of(&rules).every_rule_is_called(&rules)
}

#[test]
fn calls_in_dropped_arguments_do_not_count() {
    assert!(calls_every_rule("00 01 00, 02 01 80, 00 03 41 40 00"));
    assert!(!calls_every_rule("00 01 00, 02 01 80, 00 03 41 00 40"));
    // Rule 2 hands to rule 1 what it drops: rule 0 is called there only.
    assert!(!calls_every_rule("00 01 00, 02 01 80, 01 03 41 80 40, 00 02 42 00"));
    assert!(!calls_every_rule("00 01 00, 00 01 00"));
    assert!(calls_every_rule("00 01 00"));
}

/// W's alphabet in a head; a, and h over it.
const ALPHABET: &str = "03 00 02 01";
const LEAF: &str = "00 00 00 00 FFFF FFFF FFFF FFFF";
const OVER: &str = "00 02 00 00 0000 FFFF FFFF FFFF";

#[test]
fn no_rule_of_a_form_stands_for_what_is_dropped() {
    let one = bytes(&format!("0100 0000 {ALPHABET} {LEAF}"));
    let two = bytes(&format!("0200 0000 {ALPHABET} {LEAF} {OVER}"));
    let dropped = facts("02 01 80, 00 04 40 00 02 00");
    assert_eq!(making::check(&dropped, &one), Ok(()));
    let told = making::check(&dropped, &two).expect_err("h(a) is dropped");
    assert!(told.contains("rule 1 of the form stands for no part"), "{told}");
    // A rule that is never called may have its form.
    let not_called = facts("00 02 02 00, 00 01 00");
    assert_eq!(making::check(&not_called, &two), Ok(()));
}

#[test]
fn labels_beside_what_is_dropped() {
    // f(y1, a), doubled twenty times; h(a) is handed down everywhere and dropped.
    let doubled = (0..20).map(|rule| format!("02 05 {0:02X} {0:02X} 80 00 81, ", 0x40 + rule));
    let rules = format!("02 03 01 80 00, {}00 04 54 00 02 00", doubled.collect::<String>());
    let facts = facts(&rules);
    assert_eq!(facts.whole.length, (1 << 21) + 1);
    for (position, terminal) in facts.labels {
        assert_eq!(terminal, u8::from(position < 1 << 20));
    }
}

#[test]
fn sheets_of_the_old_kind_have_each_parameter_once() {
    for case in 0..300 {
        let plan = sheets::exact(&mut Random::of_case(1, case));
        for rule in &plan.rules {
            let mut parameters: Vec<u8> =
                rule.nodes.iter().copied().filter(|&node| node >= 0x80).collect();
            parameters.sort_unstable();
            let all: Vec<u8> = (0..rule.rank).map(|number| 0x80 + number).collect();
            assert!(parameters == all && (rule.nodes.len() > 1 || all.is_empty()));
        }
    }
}
