//! R-8 by the reference: its examples, the order of its refusals, and its entries beside those of
//! evaluation and beside the definition of what is redone.

use compare::calls::FixedCalls;
use compare::generate::additions::{Addition, addition};
use compare::generate::held;
use compare::generate::random::Random;
use compare::harness::named_adding::{ADDED, HA, REFUSED, TIMES, addition as given, repeated};
use compare::limits::MOST_TRANSITIONS;
use compare::reference::adding;
use compare::reference::alphabet::Alphabet;
use compare::reference::automaton::Automaton;
use compare::reference::fixed_calls::Reference;
use compare::reference::form::{Form, FormRule};
use compare::reference::relations;

/// What the mask holds before a call.
const HELD: u8 = 0xA5;

/// The code, the slice and the mask after a call.
fn added(addition: &Addition, held: &[u64]) -> (u8, Vec<u64>, u8) {
    let Addition { alphabet, form, automaton, transition } = addition;
    let (mut relations, mut mask) = (held.to_vec(), HELD);
    let code =
        Reference.add_transition(alphabet, form, automaton, transition, &mut relations, &mut mask);
    (code, relations, mask)
}

/// The same of evaluation over the automaton with these transitions behind its own.
fn evaluated(addition: &Addition, more: &[u8], held: &[u64]) -> (u8, Vec<u64>, u8) {
    let Addition { alphabet, form, automaton, .. } = addition;
    let (mut relations, mut mask) = (held.to_vec(), HELD);
    let automaton = [&automaton[..], more].concat();
    let code = Reference.evaluate(alphabet, &automaton, form, &mut relations, &mut mask);
    (code, relations, mask)
}

/// Inputs that are generated.
fn generated(cases: u64) -> impl Iterator<Item = (Addition, Random)> {
    (0..cases).map(|case| {
        let mut random = Random::of_case(31, case);
        (addition(&mut random), random)
    })
}

#[test]
fn the_examples() {
    for example in ADDED {
        let expected = (0, example.left.to_vec(), example.mask);
        let addition = example.addition();
        assert_eq!(added(&addition, example.held), expected, "{:?}", example.held);
    }
}

#[test]
fn the_order_of_the_refusals() {
    for (alphabet, around, automaton, transition, numbers, code) in REFUSED {
        let addition = given(alphabet, around, automaton, transition);
        let held = &[1, 2, 3][..numbers];
        let expected = (code, held.to_vec(), HELD);
        assert_eq!(added(&addition, held), expected, "{automaton} {transition}");
    }
}

/// The code for {a; h(rule 0)} beside an automaton with so many states and so many times a to 0.
fn code_of(states: u8, times: usize, transition: &str) -> u8 {
    let automaton = repeated(states, "00 00 FF FF FF FF", times);
    added(&given("00 02 01", HA, &automaton, transition), &[1, 2]).0
}

#[test]
fn a_full_automaton_is_told_first() {
    for times in TIMES {
        let full = times >= MOST_TRANSITIONS;
        for (states, transition, code) in [
            (2, "02 01 00 FF FF FF", 0),
            (2, "02 01 00 FF FF", 29),
            (2, "", 29),
            (2, "03 01 00 FF FF FF", 29),
            (0, "02 01 00 FF FF FF", 15),
            (9, "", 15),
        ] {
            let code = if full { 14 } else { code };
            assert_eq!(code_of(states, times, transition), code, "{times}");
        }
    }
}

#[test]
fn states_of_the_old_automaton_only() {
    for states in 1..=8 {
        for (target, child) in [(0, 0), (0, 1), (1, 0), (1, 1)] {
            let transition = format!("02 {:02X} {:02X} FFFFFF", states - target, states - child);
            let code = if target == 1 && child == 1 { 0 } else { 29 };
            assert_eq!(code_of(states, 1, &transition), code, "{transition}");
        }
    }
}

/// Whether the rule has the terminal, or calls one that depends on it: document 02 word by word.
fn depends(form: &Form, number: usize, wanted: u8) -> bool {
    let rule = &form.rules[number];
    let has = matches!(rule, FormRule::Node { terminal, .. } if *terminal == wanted);
    has || rule.calls().into_iter().any(|called| depends(form, called, wanted))
}

#[test]
fn what_depends_is_what_calls_the_terminal() {
    let mut compared = [0; 2];
    for (addition, _) in generated(600) {
        let Ok(form) = Form::read(&addition.form) else { continue };
        // Longer forms would take very many calls.
        for terminal in (0..32).filter(|_| form.rules.len() <= 16) {
            let dependent = adding::dependent(&form, terminal);
            for (number, &found) in dependent.iter().enumerate() {
                assert_eq!(found, depends(&form, number, terminal), "{number}, {terminal}");
                compared[usize::from(found)] += 1;
            }
        }
    }
    assert!(compared.iter().all(|&times| times > 1000), "{compared:?}");
}

#[test]
fn entries_of_every_rule_are_those_of_evaluation() {
    let mut compared = 0;
    for (addition, _) in generated(600) {
        let Ok(alphabet) = Alphabet::read(&addition.alphabet) else { continue };
        let Ok(automaton) = Automaton::read(&alphabet, &addition.automaton) else { continue };
        let Ok(form) = Form::read_over(&alphabet, &addition.form) else { continue };
        let expected = relations::of(&automaton, &form);
        for (rule, &entry) in form.rules.iter().zip(&expected) {
            assert_eq!(adding::entry(&automaton, rule, &expected), entry);
            compared += 1;
        }
    }
    assert!(compared > 10_000, "{compared}");
}

#[test]
fn relations_are_carried_over() {
    let mut carried = 0;
    for (addition, mut random) in generated(1500) {
        let held = random.bytes(2060).into_iter().map(u64::from).collect::<Vec<u64>>();
        let (0, old, _) = evaluated(&addition, &[], &held) else { continue };
        let (code, left, mask) = added(&addition, &old);
        if code != 0 {
            assert_eq!((left, mask), (old, HELD));
            continue;
        }
        assert_eq!((0, left.clone(), mask), evaluated(&addition, &addition.transition, &held));
        assert!(old.iter().zip(&left).all(|(old, left)| old & !left == 0));
        carried += 1;
    }
    assert!(carried > 500, "{carried}");
}

#[test]
fn other_entries_and_later_numbers_are_kept() {
    let mut kept = 0;
    for (addition, mut random) in generated(1500) {
        let Ok(form) = Form::read(&addition.form) else { continue };
        let held = held::numbers(&mut random, &vec![0; form.rules.len() + 3]);
        let (0, left, mask) = added(&addition, &held) else { continue };
        let dependent = adding::dependent(&form, addition.transition[0]);
        for (number, (held, left)) in held.iter().zip(&left).enumerate() {
            if !dependent.get(number).is_some_and(|&dependent| dependent) {
                assert_eq!(held, left);
                kept += 1;
            }
        }
        assert_eq!(mask, left[form.start] as u8);
    }
    assert!(kept > 10_000, "{kept}");
}
