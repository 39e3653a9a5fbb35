//! New transitions, to be added to an automaton.

use super::automata::transition_of;
use super::bytes;
use super::forms::uses;
use super::random::Random;
use crate::reference::alphabet::Alphabet;

/// A transition to add to the automaton beside this form, mostly a lawful one. Alphabet, automaton
/// and form may be damaged.
pub fn transition(random: &mut Random, alphabet: &[u8], automaton: &[u8], form: &[u8]) -> Vec<u8> {
    if Alphabet::read(alphabet).is_err() {
        return random.bytes(6);
    }
    let terminal = terminal(random, alphabet, form);
    let lawful = of_terminal(random, alphabet, automaton, terminal);
    if random.one_in(4) {
        damaged(random, alphabet, states(automaton), lawful)
    } else {
        lawful.to_vec()
    }
}

/// How many states the automaton has, or should have.
fn states(automaton: &[u8]) -> u8 {
    automaton.first().copied().unwrap_or(1).clamp(1, 8)
}

/// A lawful transition of this terminal between states of the automaton: a repeat of one that the
/// automaton has, one with the last state everywhere, or any.
pub fn of_terminal(
    random: &mut Random,
    alphabet: &[u8],
    automaton: &[u8],
    terminal: usize,
) -> [u8; 6] {
    let states = states(automaton);
    let rows = automaton.get(2..).unwrap_or_default().as_chunks::<6>().0;
    let own: Vec<&[u8; 6]> = rows.iter().filter(|row| usize::from(row[0]) == terminal).collect();
    let mut row = transition_of(random, alphabet, terminal, states);
    match random.below(6) {
        0 if !own.is_empty() => **random.pick(&own),
        1 => {
            row[1..2 + usize::from(alphabet[terminal])].fill(states - 1);
            row
        }
        _ => row,
    }
}

/// Any terminal, one that some rule of the form has, or one that none has.
fn terminal(random: &mut Random, alphabet: &[u8], form: &[u8]) -> usize {
    let wanted = random.one_in(2);
    let of_kind = (0..alphabet.len()).filter(|&it| uses(form, it as u8) == wanted);
    let terminals: Vec<usize> = of_kind.collect();
    let any = random.below(alphabet.len());
    if terminals.is_empty() || random.one_in(2) { any } else { *random.pick(&terminals) }
}

/// The transition with one thing wrong, as a rule.
fn damaged(random: &mut Random, alphabet: &[u8], states: u8, lawful: [u8; 6]) -> Vec<u8> {
    let terminal = usize::from(lawful[0]).min(alphabet.len() - 1);
    let rank = usize::from(alphabet[terminal]);
    let no_state = *random.pick(&[states, states, 7, 8, 0xFE, 0xFF]);
    let mut row = lawful;
    match random.below(8) {
        0 | 1 => return of_other_length(random, lawful),
        2 => row[0] = *random.pick(&[alphabet.len() as u8, 0x1F, 0x20, 0xFF]),
        3 => row[1] = no_state,
        4 if rank > 0 => row[2 + random.below(rank)] = no_state,
        5 if rank < 4 => {
            row[2 + random.between(rank, 3)] = *random.pick(&[0, states - 1, 7, 0xFE]);
        }
        // Of an automaton with more states.
        6 => row = transition_of(random, alphabet, terminal, 8),
        _ => return bytes::damaged(random, &lawful),
    }
    row.to_vec()
}

/// No bytes, one less, one more, or two transitions.
fn of_other_length(random: &mut Random, lawful: [u8; 6]) -> Vec<u8> {
    let twice = [lawful, lawful].concat();
    let length = *random.pick(&[0, 5, 5, 7, 12]);
    twice[..length].to_vec()
}
