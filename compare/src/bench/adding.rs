//! The table of added transitions: forms of 2,048 rules of all kinds, of which few, half or most
//! depend on the new transition's terminal, and the call beside a fresh evaluation of the longer
//! automaton.

use super::table::ROUNDS;
use super::timing::best;
use crate::calls::Engine;
use crate::generate::additions::Addition;
use crate::generate::random::Random;
use crate::generate::{automata, forms};
use crate::idiomatic::Idiomatic;
use crate::limits::MOST_TRANSITIONS;
use crate::reference::adding::dependent;
use crate::reference::form::Form;
use std::hint::black_box;

/// a, h and f of ranks 0 to 2, and one of rank 1 that is rare.
const ALPHABET: [u8; 4] = [0, 1, 2, 1];
const LEAF: u8 = 0;
const RARE: u8 = 3;

const RULES: usize = 2048;
const STATES: u8 = 8;

/// A transition to be timed.
pub struct Subject {
    pub name: &'static str,
    pub addition: Addition,
}

impl Subject {
    /// How many rules the form has, and how many of them are redone.
    pub fn counts(&self) -> [usize; 2] {
        let form = Form::read(&self.addition.form).expect("a valid form");
        let redone = dependent(&form, self.addition.transition[0]);
        [redone.len(), redone.into_iter().filter(|redone| *redone).count()]
    }
}

/// The longer automaton has as many transitions as there may be.
pub fn subjects() -> [Subject; 3] {
    [
        subject("few depend", 16, RARE),
        subject("half depend", RULES / 2, RARE),
        subject("most depend", 16, LEAF),
    ]
}

/// A form whose last so many rules may have the rare terminal, and a new transition of this one.
fn subject(name: &'static str, rare_rules: usize, terminal: u8) -> Subject {
    let mut random = Random::new(8);
    let form = forms::with_few(&mut random, &ALPHABET, RARE, RULES, rare_rules);
    let lawful = automata::automaton_of(&mut random, &ALPHABET, STATES);
    let automaton = automata::with_count(&mut random, &ALPHABET, &lawful, MOST_TRANSITIONS - 1);
    let row = automata::transition_of(&mut random, &ALPHABET, terminal.into(), STATES);
    let alphabet = ALPHABET.to_vec();
    Subject { name, addition: Addition { alphabet, form, automaton, transition: row.to_vec() } }
}

/// One line for each form: the rules, those that are redone, microseconds of the engine and of
/// idiomatic Rust with the ratio, and of the engine's fresh evaluation. The last ratio is the
/// engine's time for adding over that of the evaluation.
pub fn print(engine: &dyn Engine) {
    println!(
        "{:16} {:>5} {:>6} {:>9} {:>12} {:>7} {:>11} {:>7}",
        "form", "rules", "redone", "add us", "idiomatic us", "ratio", "evaluate us", "ratio"
    );
    for subject in subjects() {
        let ([rules, redone], [ours, theirs, fresh]) = (subject.counts(), times(engine, &subject));
        print!("{:16} {rules:5} {redone:6} {ours:9.3} {theirs:12.3} ", subject.name);
        println!("{:7.2} {fresh:11.3} {:7.3}", ours / theirs, ours / fresh);
    }
}

/// The engine's time, that of idiomatic Rust, and that of the engine's fresh evaluation, in turns.
fn times(engine: &dyn Engine, subject: &Subject) -> [f64; 3] {
    let mut least = [f64::INFINITY; 3];
    for _ in 0..ROUNDS {
        let addition = &subject.addition;
        let round = [time(engine, addition), time(&Idiomatic, addition), fresh(engine, addition)];
        least = [0, 1, 2].map(|way| least[way].min(round[way]));
    }
    least
}

/// Microseconds for adding the transition to the relations of the old automaton. From the second
/// time on the slice holds what the call left, and redoing that leaves it as it is: every timed
/// call but the first starts from the same numbers, and none is copied.
pub fn time(engine: &dyn Engine, addition: &Addition) -> f64 {
    let Addition { alphabet, form, automaton, transition } = addition;
    let (mut relations, mut mask) = (vec![0; form.len()], 0);
    assert_eq!(engine.evaluate(alphabet, automaton, form, &mut relations, &mut mask), 0);
    best(|| {
        let (automaton, transition) = black_box((automaton, transition));
        let numbers = &mut relations;
        let code = engine.add_transition(alphabet, form, automaton, transition, numbers, &mut mask);
        assert_eq!(code, 0);
        black_box((&relations, mask));
    })
}

/// Microseconds for evaluating the longer automaton.
fn fresh(engine: &dyn Engine, addition: &Addition) -> f64 {
    let Addition { alphabet, form, automaton, transition } = addition;
    let longer = [&automaton[..], transition].concat();
    let (mut relations, mut mask) = (vec![0; form.len()], 0);
    best(|| {
        let code = engine.evaluate(alphabet, black_box(&longer), form, &mut relations, &mut mask);
        assert_eq!(code, 0);
        black_box((&relations, mask));
    })
}
