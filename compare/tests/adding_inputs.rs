//! The transitions that are generated, with the forms, automata and numbers beside them, come to
//! every case that adding one tells apart.

use compare::generate::additions::{Addition, addition};
use compare::generate::held;
use compare::generate::random::Random;
use compare::limits::MOST_TRANSITIONS;
use compare::reference::adding;
use compare::reference::alphabet::Alphabet;
use compare::reference::automaton::{self, Automaton};
use compare::reference::calls;
use compare::reference::form::{Form, FormRule};
use compare::reference::head::rules_behind;
use compare::refusal::{Answer, Refusal};
use std::collections::BTreeMap;
use std::sync::LazyLock;

/// An input with what is said of it with a slice that suffices: 0 for an answer.
struct Known {
    addition: Addition,
    code: u8,
}

static GENERATED: LazyLock<Vec<Known>> =
    LazyLock::new(|| (0..8000).map(|case| known(addition(&mut random(case)))).collect());

fn random(case: u64) -> Random {
    Random::of_case(14, case)
}

fn known(addition: Addition) -> Known {
    let Addition { alphabet, form, automaton, transition } = &addition;
    let mut relations = vec![0; rules_behind(form)];
    let answer = calls::add_transition(alphabet, form, automaton, transition, &mut relations);
    Known { code: told(answer), addition }
}

fn told<T>(answer: Answer<T>) -> u8 {
    answer.err().map_or(0, |Refusal(number)| number)
}

/// How often there is an input of this code for which this holds.
fn times(wanted: u8, holds: impl Fn(&Addition) -> bool) -> usize {
    GENERATED.iter().filter(|known| known.code == wanted && holds(&known.addition)).count()
}

/// The inputs that are answered, each with its form and with what is redone.
fn answered() -> impl Iterator<Item = (&'static Addition, Form, Vec<bool>)> {
    GENERATED.iter().filter(|known| known.code == 0).map(|Known { addition, .. }| {
        let form = Form::read(&addition.form).expect("a valid form");
        let redone = adding::dependent(&form, addition.transition[0]);
        (addition, form, redone)
    })
}

/// The kind of a rule.
fn kind(rule: &FormRule) -> usize {
    match rule {
        FormRule::Node { open, .. } => usize::from(*open),
        FormRule::Applied { .. } => 2,
        FormRule::Composed { .. } => 3,
    }
}

/// How many whole transitions the automaton has.
fn count(addition: &Addition) -> Option<usize> {
    let behind = addition.automaton.len().checked_sub(2)?;
    behind.is_multiple_of(6).then_some(behind / 6)
}

/// What the old automaton says by itself: 0 for nothing wrong.
fn of_automaton(addition: &Addition) -> u8 {
    let alphabet = Alphabet::read(&addition.alphabet);
    told(alphabet.and_then(|alphabet| Automaton::read(&alphabet, &addition.automaton)))
}

/// What alphabet and form say by themselves.
fn of_form(addition: &Addition) -> u8 {
    told(calls::read_rule(&addition.alphabet, &addition.form, 0))
}

/// Whether the transition has six bytes and is lawful over so many states.
fn is_lawful(addition: &Addition, states: u8) -> bool {
    let alphabet = Alphabet::read(&addition.alphabet).expect("a lawful alphabet");
    addition.transition.len() == 6
        && automaton::transition(&alphabet, states, &addition.transition).is_some()
}

#[test]
fn every_answer() {
    assert!(times(0, |_| true) > 2500);
    for code in [3, 4, 14, 15, 16, 29, 18, 28] {
        assert!(times(code, |_| true) > 60, "{code}");
    }
}

#[test]
fn rules_that_depend_are_none_few_many_and_all() {
    let mut counts = [0; 4];
    for (_, form, redone) in answered().filter(|(_, form, _)| form.rules.len() >= 20) {
        let depend = redone.iter().filter(|redone| **redone).count();
        counts[match 10 * depend / form.rules.len() {
            0 if depend == 0 => 0,
            0 => 1,
            _ if depend < form.rules.len() => 2,
            _ => 3,
        }] += 1;
    }
    assert!(counts.iter().all(|&times| times > 30), "{counts:?}");
    let most = answered().filter(|(_, form, _)| form.rules.len() == 2048);
    let few =
        most.filter(|(.., redone)| (1..200).contains(&redone.iter().filter(|it| **it).count()));
    assert!(few.count() > 20);
}

#[test]
fn starts_and_rules_that_are_not_reached_are_redone_and_kept() {
    let (mut starts, mut others) = ([0; 2], [0; 2]);
    for (_, form, redone) in answered() {
        starts[usize::from(redone[form.start])] += 1;
        for (reached, redone) in form.reached().into_iter().zip(redone) {
            if !reached {
                others[usize::from(redone)] += 1;
            }
        }
    }
    assert!(starts.iter().all(|&times| times > 300), "{starts:?}");
    assert!(others.iter().all(|&times| times > 1000), "{others:?}");
}

#[test]
fn rules_of_every_kind_are_redone_through_calls_of_every_place() {
    let mut counts: BTreeMap<(usize, usize), u64> = BTreeMap::new();
    let mut kept = [0; 4];
    for (addition, form, redone) in answered() {
        for (rule, redone_here) in form.rules.iter().zip(&redone) {
            let wanted = addition.transition[0];
            let named = matches!(rule, FormRule::Node { terminal, .. } if *terminal == wanted);
            let calls = rule.calls();
            let dependent: Vec<usize> = (0..calls.len()).filter(|&it| redone[calls[it]]).collect();
            match dependent[..] {
                [place] if !named => *counts.entry((kind(rule), place)).or_default() += 1,
                _ => {}
            }
            kept[kind(rule)] += u64::from(!redone_here);
        }
    }
    let nodes = (0..4).map(|place| (0, place)).chain((0..3).map(|place| (1, place)));
    for key in nodes.chain([(2, 0), (2, 1), (3, 0), (3, 1)]) {
        assert!(counts.get(&key).is_some_and(|&times| times > 10), "{key:?} of {counts:?}");
    }
    assert!(kept.iter().all(|&times| times > 1000), "{kept:?}");
}

#[test]
fn redone_rules_call_kept_ones_of_both_ranks() {
    let mut counts = [0; 2];
    for (_, form, redone) in answered() {
        let rules = form.rules.iter().zip(&redone).filter(|(_, redone)| **redone);
        for called in rules.flat_map(|(rule, _)| rule.calls()).filter(|&called| !redone[called]) {
            counts[form.rules[called].rank()] += 1;
        }
    }
    assert!(counts.iter().all(|&times| times > 1000), "{counts:?}");
}

#[test]
fn automata_around_the_limit() {
    for before in [0, MOST_TRANSITIONS - 1] {
        assert!(times(0, |it| count(it) == Some(before)) > 50, "{before}");
    }
    for before in [MOST_TRANSITIONS, MOST_TRANSITIONS + 1] {
        assert!(times(14, |it| count(it) == Some(before)) > 50, "{before}");
    }
    assert!(times(14, |it| count(it).is_none() && it.automaton.len() > 2) > 20);
    assert!(times(14, |it| it.automaton.len() < 2) > 20);
    // What would be told of a full one otherwise.
    let full = |it: &Addition| count(it) == Some(MOST_TRANSITIONS);
    for code in [15, 16] {
        assert!(times(14, |it| full(it) && of_automaton(it) == code) > 5, "{code}");
    }
    assert!(
        times(14, |it| full(it) && of_automaton(it) == 0 && !is_lawful(it, it.automaton[0])) > 20
    );
    assert!(times(14, |it| full(it) && of_form(it) == 18) > 5);
}

#[test]
fn transitions_that_are_added() {
    for states in 1..=8 {
        let last = |it: &Addition| {
            let used = 2 + usize::from(it.alphabet[usize::from(it.transition[0])]);
            it.automaton[0] == states && it.transition[1..used].iter().all(|&at| at == states - 1)
        };
        assert!(times(0, last) > 20, "{states}");
    }
    for rank in 0..=4 {
        let of_rank = |it: &Addition| it.alphabet[usize::from(it.transition[0])] == rank;
        assert!(times(0, of_rank) > 100, "{rank}");
    }
    let is_repeat =
        |it: &Addition| it.automaton[2..].chunks(6).any(|row| row == it.transition.as_slice());
    assert!(times(0, is_repeat) > 100);
    assert!(times(0, |it| !is_repeat(it)) > 1000);
}

#[test]
fn transitions_that_are_refused() {
    for length in [0, 5, 7, 12] {
        assert!(times(29, |it| it.transition.len() == length) > 10, "{length}");
    }
    let six = |it: &Addition| it.transition.len() == 6;
    let rank = |it: &Addition| it.alphabet.get(usize::from(it.transition[0])).copied();
    assert!(times(29, |it| six(it) && rank(it).is_none()) > 20);
    let is_over = |it: &Addition, place: usize| it.transition[place] >= it.automaton[0];
    assert!(times(29, |it| six(it) && rank(it).is_some() && is_over(it, 1)) > 20);
    for child in 1..=4 {
        let used = |it: &Addition| six(it) && rank(it).is_some_and(|rank| rank >= child);
        let unused = |it: &Addition| six(it) && rank(it).is_some_and(|rank| rank < child);
        let place = 1 + usize::from(child);
        assert!(times(29, |it| used(it) && is_over(it, place)) > 5, "{child}");
        assert!(times(29, |it| unused(it) && it.transition[place] != 0xFF) > 5, "{child}");
    }
    assert!(times(29, |it| it.automaton[0] < 8 && is_lawful(it, 8)) > 20);
}

#[test]
fn what_is_told_first() {
    for (first, form) in [(29, 18), (29, 28), (14, 28), (16, 18), (15, 18)] {
        assert!(times(first, |it| of_form(it) == form) > 5, "{first} before {form}");
    }
    let states = |it: &Addition| it.automaton[0];
    assert!(times(16, |it| !is_lawful(it, states(it))) > 20);
    assert!(times(15, |it| it.transition.len() != 6) > 5);
}

#[test]
fn numbers_that_are_held() {
    let mut counts: BTreeMap<&str, u64> = BTreeMap::new();
    let mut count = |what, holds: bool| *counts.entry(what).or_default() += u64::from(holds);
    for case in 0..2000 {
        let relations = [1, 0x201, 0, 0x80];
        let held = held::numbers(&mut random(case), &relations);
        assert_eq!(held.len(), relations.len());
        count("zeros", held == [0; 4]);
        count("ones", held == [u64::MAX; 4]);
        count("low bits only", held.iter().all(|&number| (1..0x100).contains(&number)));
        let above = |(held, old): (&u64, &u64)| *held as u8 == *old as u8 && held >> 8 != old >> 8;
        count("later bits beside the old ones", held.iter().zip(&relations).all(above));
        count("some old ones", held != relations && held[0] == 1 && held[1] == 0x201);
        count("one bit", held.iter().all(|number| number.count_ones() == 1));
        count("few bits", held.iter().all(|number| (1..16).contains(&number.count_ones())));
        count("states that there may not be", held[1] & 0x8080_8080_8080_8080 != 0);
    }
    assert_eq!(counts.len(), 8);
    assert!(counts.values().all(|&times| times > 40), "{counts:?}");
}
