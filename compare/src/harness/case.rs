//! One generated input, put through the calls.

use super::checker::Checker;
use super::difference::Checked;
use crate::generate::form_inputs::{self, FormInput};
use crate::generate::random::Random;
use crate::generate::{additions, alphabets, automata, bytes, damage, practice, sheets, trees};

impl Checker<'_> {
    pub fn case(&mut self, random: &mut Random) -> Checked<()> {
        match random.below(18) {
            0..=4 => {
                let sheet = sheets::plan(random).sheet();
                self.sheet(random, &sheet)
            }
            5..=8 => {
                let plan = sheets::plan(random);
                let sheet = damage::damaged(random, &plan);
                self.sheet(random, &sheet)
            }
            9 => {
                let sheet = damage::noise(random);
                self.sheet(random, &sheet)
            }
            10..=12 => {
                let FormInput { alphabet, automaton, form } = form_inputs::input(random);
                self.form(random, &alphabet, &automaton, &form)?;
                let addition = additions::addition(random);
                self.additions(random, &addition)
            }
            13..=15 => self.tree_case(random),
            _ => {
                let practice = practice::practice(random);
                self.practice(random, &practice)
            }
        }
    }

    fn tree_case(&mut self, random: &mut Random) -> Checked<()> {
        let alphabet = match random.below(2) {
            0 => alphabets::alphabet_with_chain(random),
            _ => alphabets::alphabet(random),
        };
        let size = trees::size(random);
        let tree = trees::tree(random, &alphabet, size);
        let tree = match random.below(8) {
            0..=1 => bytes::damaged(random, &tree),
            2 => {
                let length = *random.pick(&[0, 1, 2, 128, 129, 4096, 4097]);
                vec![random.below(3) as u8; length]
            }
            3 => {
                let length = random.below(20);
                random.bytes(length)
            }
            _ => tree,
        };
        let (alphabet, automaton) = surroundings(random, alphabet);
        self.tree(random, &alphabet, &automaton, &tree)
    }
}

/// The alphabet and an automaton over it, sometimes one or both damaged.
fn surroundings(random: &mut Random, alphabet: Vec<u8>) -> (Vec<u8>, Vec<u8>) {
    let mut automaton = automata::automaton(random, &alphabet);
    let mut alphabet = alphabet;
    if random.one_in(6) {
        automaton = automata::damaged(random, &automaton);
    }
    if random.one_in(6) {
        alphabet = alphabets::damaged(random, &alphabet);
    }
    (alphabet, automaton)
}
