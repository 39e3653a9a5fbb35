//! A tree automaton: states, final states and transitions.

use super::alphabet::Alphabet;
use crate::limits::MOST_TRANSITIONS;
use crate::refusal::{Answer, Refusal};

pub struct Transition {
    pub terminal: u8,
    pub target: u8,
    pub children: Vec<u8>,
}

/// Sets of states are bytes: bit q for state q.
pub struct Automaton {
    pub states: u8,
    pub finals: u8,
    pub transitions: Vec<Transition>,
}

impl Automaton {
    /// Refusals 14 to 16.
    pub fn read(alphabet: &Alphabet, bytes: &[u8]) -> Answer<Automaton> {
        check_length(bytes.len())?;
        let (states, finals) = (bytes[0], bytes[1]);
        if !(1..=8).contains(&states) || (states..8).any(|state| has(finals, state)) {
            return Err(Refusal(15));
        }
        let transitions = bytes[2..]
            .chunks(6)
            .map(|row| transition(alphabet, states, row))
            .collect::<Option<Vec<Transition>>>()
            .ok_or(Refusal(16))?;
        Ok(Automaton { states, finals, transitions })
    }

    /// The states a run may give a node whose children have these sets of states.
    pub fn step(&self, terminal: u8, children: &[u8]) -> u8 {
        let mut targets = 0;
        for transition in &self.transitions {
            let wanted = transition.children.iter().zip(children);
            if transition.terminal == terminal
                && wanted.clone().all(|(&state, &set)| has(set, state))
            {
                targets |= 1 << transition.target;
            }
        }
        targets
    }
}

/// Whether the set has the state.
pub fn has(set: u8, state: u8) -> bool {
    set & (1 << state) != 0
}

/// Refusal 14 of an automaton of so many bytes.
pub fn check_length(length: usize) -> Answer<()> {
    if length < 2 || !(length - 2).is_multiple_of(6) || (length - 2) / 6 > MOST_TRANSITIONS {
        return Err(Refusal(14));
    }
    Ok(())
}

/// The transition of these six bytes, if all that they name exists and what is unused is FF.
pub fn transition(alphabet: &Alphabet, states: u8, row: &[u8]) -> Option<Transition> {
    let rank = alphabet.rank(row[0])?;
    let (used, unused) = row[2..].split_at(rank);
    let there = row[1] < states
        && used.iter().all(|&state| state < states)
        && unused.iter().all(|&byte| byte == 0xFF);
    there.then(|| Transition { terminal: row[0], target: row[1], children: used.to_vec() })
}
