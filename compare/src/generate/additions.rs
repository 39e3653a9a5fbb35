//! Transitions with the form and the automaton that they are added to.

use super::alphabets;
use super::automata;
use super::form_inputs::{self, FormInput};
use super::forms;
use super::random::Random;
use super::transitions;
use crate::limits::MOST_TRANSITIONS;

pub struct Addition {
    pub alphabet: Vec<u8>,
    pub form: Vec<u8>,
    pub automaton: Vec<u8>,
    pub transition: Vec<u8>,
}

/// Lawful ones in which some or few rules depend on the new terminal, and those in which anything
/// may be damaged.
pub fn addition(random: &mut Random) -> Addition {
    match random.below(3) {
        0 => with_few(random),
        1 => between(random),
        _ => {
            let input = form_inputs::input(random);
            beside(random, input)
        }
    }
}

/// A transition to add to what is given to the calls on a form.
pub fn beside(random: &mut Random, input: FormInput) -> Addition {
    let FormInput { alphabet, automaton, form } = input;
    let transition = transitions::transition(random, &alphabet, &automaton, &form);
    Addition { alphabet, form, automaton, transition }
}

/// A lawful form in which few rules depend on the new transition's terminal, where the alphabet
/// allows it.
fn with_few(random: &mut Random) -> Addition {
    let alphabet = alphabets::alphabet(random);
    let rare = random.below(alphabet.len()) as u8;
    let is_other_leaf = |leaf: &u8| *leaf != rare;
    if !alphabets::of_rank(&alphabet, 0).iter().any(is_other_leaf) {
        return between(random);
    }
    let (count, last) = (forms::rule_count(random), random.between(0, 12));
    let form = forms::with_few(random, &alphabet, rare, count, last);
    let automaton = automaton(random, &alphabet);
    let transition = transitions::of_terminal(random, &alphabet, &automaton, usize::from(rare));
    Addition { alphabet, form, automaton, transition: transition.to_vec() }
}

/// A lawful form beside any transition.
fn between(random: &mut Random) -> Addition {
    let (alphabet, form) = match random.below(3) {
        0 => {
            let alphabet = alphabets::alphabet_with_chain(random);
            let height = forms::height(random);
            let form = forms::tower(random, &alphabet, height);
            (alphabet, form)
        }
        _ => {
            let alphabet = alphabets::alphabet(random);
            let form = forms::form(random, &alphabet);
            (alphabet, form)
        }
    };
    let automaton = automaton(random, &alphabet);
    beside(random, FormInput { alphabet, automaton, form })
}

/// An automaton with room for one more, as a rule: also with no transition, and with one less than
/// there may be, as many, or too many. Some of these are damaged otherwise.
fn automaton(random: &mut Random, alphabet: &[u8]) -> Vec<u8> {
    let lawful = automata::automaton(random, alphabet);
    let (most, held) = (MOST_TRANSITIONS, (lawful.len() - 2) / 6);
    let count = match random.below(10) {
        0 => 0,
        1 | 2 => most - 1,
        3 => most,
        4 => most + 1,
        _ => held.min(most - 1),
    };
    let sized = automata::with_count(random, alphabet, &lawful, count);
    if random.one_in(8) { automata::damaged(random, &sized) } else { sized }
}
