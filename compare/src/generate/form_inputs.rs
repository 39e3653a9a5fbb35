//! Forms with the alphabets and automata that are given beside them.

use super::alphabets;
use super::automata;
use super::form_damage;
use super::forms;
use super::other_alphabets;
use super::random::Random;
use crate::reference::alphabet::Alphabet;
use crate::reference::head;

pub struct FormInput {
    pub alphabet: Vec<u8>,
    pub automaton: Vec<u8>,
    pub form: Vec<u8>,
}

/// A form, lawful or not; an alphabet, its own or not; and an automaton over one of these. Each may
/// be damaged, so that it matters which refusal comes first.
pub fn input(random: &mut Random) -> FormInput {
    let lawful = lawful_form(random);
    let form = match random.below(8) {
        0..=2 => form_damage::damaged(random, &lawful),
        3 => {
            let length = random.below(60);
            random.bytes(length)
        }
        _ => lawful.clone(),
    };
    let mut alphabet = given(random, &lawful, &form);
    let mut automaton = automaton_beside(random, &alphabet, &lawful);
    if random.one_in(6) {
        automaton = automata::damaged(random, &automaton);
    }
    if random.one_in(6) {
        alphabet = alphabets::damaged(random, &alphabet);
    }
    FormInput { alphabet, automaton, form }
}

/// An automaton over the given alphabet, which evaluation checks it against; sometimes one over the
/// form's own, which then mostly gets 16 before 28.
pub fn automaton_beside(random: &mut Random, given: &[u8], form: &[u8]) -> Vec<u8> {
    let own = own(form).filter(|_| random.one_in(6));
    automata::automaton(random, own.as_deref().unwrap_or(given))
}

fn lawful_form(random: &mut Random) -> Vec<u8> {
    if random.one_in(4) {
        let alphabet = alphabets::alphabet_with_chain(random);
        let height = forms::height(random);
        return forms::tower(random, &alphabet, height);
    }
    let alphabet = alphabets::alphabet(random);
    forms::form(random, &alphabet)
}

/// The alphabet of the lawful form; another one; or the one in the head of what the form became.
fn given(random: &mut Random, lawful: &[u8], form: &[u8]) -> Vec<u8> {
    let unchanged = own(lawful).expect("a lawful form has a lawful head");
    match random.below(6) {
        0 | 1 => other_alphabets::other(random, lawful),
        2 => own(form).unwrap_or(unchanged),
        _ => unchanged,
    }
}

/// The alphabet in a form's head, where it is lawful.
fn own(form: &[u8]) -> Option<Vec<u8>> {
    head::ranks(form).filter(|ranks| Alphabet::read(ranks).is_ok()).map(<[u8]>::to_vec)
}
