//! Automata over an alphabet.

use super::random::Random;
use crate::limits::MOST_TRANSITIONS;

/// A lawful automaton.
pub fn automaton(random: &mut Random, alphabet: &[u8]) -> Vec<u8> {
    let states = match random.below(3) {
        0 => random.between(1, 8),
        _ => random.between(1, 4),
    } as u8;
    automaton_of(random, alphabet, states)
}

/// A lawful automaton with this many states. Most have a transition for every choice of
/// children's states that there is room for, so that masks are seldom empty.
pub fn automaton_of(random: &mut Random, alphabet: &[u8], states: u8) -> Vec<u8> {
    let finals = random.byte() & (0xFF >> (8 - states));
    let mut transitions: Vec<[u8; 6]> = Vec::new();
    if !random.one_in(4) {
        transitions.extend(complete(random, alphabet, states));
    }
    let more = match random.below(8) {
        0 => MOST_TRANSITIONS,
        1 => random.between(0, MOST_TRANSITIONS),
        2 => 0,
        _ => random.between(0, 20),
    };
    for _ in 0..more {
        transitions.push(transition(random, alphabet, states));
    }
    random.shuffle(&mut transitions);
    transitions.truncate(MOST_TRANSITIONS);
    let mut automaton = vec![states, finals];
    automaton.extend(transitions.concat());
    automaton
}

/// The lawful automaton with just this many transitions, be they too many: without its last ones,
/// or with more between any of its states.
pub fn with_count(random: &mut Random, alphabet: &[u8], lawful: &[u8], count: usize) -> Vec<u8> {
    let mut bytes = lawful.to_vec();
    bytes.truncate(2 + 6 * count);
    while bytes.len() < 2 + 6 * count {
        bytes.extend(transition(random, alphabet, lawful[0]));
    }
    bytes
}

fn transition(random: &mut Random, alphabet: &[u8], states: u8) -> [u8; 6] {
    let terminal = random.below(alphabet.len());
    transition_of(random, alphabet, terminal, states)
}

/// A transition of this terminal between any states.
pub fn transition_of(random: &mut Random, alphabet: &[u8], terminal: usize, states: u8) -> [u8; 6] {
    let mut row = [0xFF; 6];
    row[0] = terminal as u8;
    for place in &mut row[1..2 + usize::from(alphabet[terminal])] {
        *place = random.below(usize::from(states)) as u8;
    }
    row
}

/// A transition for each choice of children's states, as far as the limit reaches.
fn complete(random: &mut Random, alphabet: &[u8], states: u8) -> Vec<[u8; 6]> {
    let mut transitions = Vec::new();
    for (terminal, &rank) in alphabet.iter().enumerate() {
        for tuple in 0..usize::from(states).pow(u32::from(rank)).min(MOST_TRANSITIONS) {
            let mut row = [0xFF; 6];
            row[0] = terminal as u8;
            row[1] = random.below(usize::from(states)) as u8;
            let mut digits = tuple;
            for child in &mut row[2..2 + usize::from(rank)] {
                *child = (digits % usize::from(states)) as u8;
                digits /= usize::from(states);
            }
            transitions.push(row);
        }
    }
    transitions
}

/// An automaton that mostly gets 14 to 16.
pub fn damaged(random: &mut Random, automaton: &[u8]) -> Vec<u8> {
    let mut bytes = automaton.to_vec();
    match random.below(8) {
        0 => bytes.truncate(random.below(2)),
        1 => {
            let cut = random.between(1, 5).min(bytes.len());
            bytes.truncate(bytes.len() - cut);
        }
        2 => {
            let row = [[0; 6], [0xFF; 6]][random.below(2)];
            while bytes.len() < 2 + 6 * (MOST_TRANSITIONS + 1) {
                bytes.extend(row);
            }
        }
        3 => bytes[0] = *random.pick(&[0, 9, 0xFF]),
        4 => bytes[1] = random.byte(),
        5 => bytes[0] = random.between(1, 8) as u8,
        _ if bytes.len() > 2 => {
            let place = random.between(2, bytes.len() - 1);
            bytes[place] = *random.pick(&[0, 1, 4, 7, 8, 0x1F, 0x20, 0xFE, 0xFF]);
        }
        _ => bytes.extend([0x20, 0, 0xFF, 0xFF, 0xFF, 0xFF]),
    }
    bytes
}
