//! Transitions, grouped by terminal.

use super::alphabet::Alphabet;
use crate::limits::MOST_TRANSITIONS;
use crate::refusal::{Answer, Refusal};

/// A transition of some terminal. Unused children are state 0 and meet the set of all states.
#[derive(Clone, Copy, Default)]
pub struct Row {
    pub target: u8,
    pub children: [u8; 4],
}

impl Row {
    /// 1 if each child's state lies in its set, else 0.
    pub fn fits(&self, sets: [u8; 4]) -> u64 {
        let held = |place: usize| sets[place] >> self.children[place];
        u64::from(held(0) & held(1) & held(2) & held(3) & 1)
    }
}

pub struct Automaton {
    pub finals: u8,
    rows: Vec<Row>,
    /// The rows of terminal t lie from `starts[t]` to `starts[t + 1]`.
    starts: [usize; 33],
}

impl Automaton {
    pub fn read(alphabet: Alphabet, bytes: &[u8]) -> Answer<Self> {
        let (finals, rows) = Automaton::check(alphabet, bytes)?;
        Ok(Automaton::grouped(finals, rows))
    }

    /// The final states and the transitions, where no refusal is given.
    pub fn check<'a>(alphabet: Alphabet, bytes: &'a [u8]) -> Answer<(u8, &'a [[u8; 6]])> {
        Automaton::check_most(alphabet, bytes, MOST_TRANSITIONS)
    }

    /// The same where no more than so many transitions are allowed.
    pub fn check_most<'a>(
        alphabet: Alphabet,
        bytes: &'a [u8],
        most: usize,
    ) -> Answer<(u8, &'a [[u8; 6]])> {
        let [states, finals, transitions @ ..] = bytes else {
            return Err(Refusal(14));
        };
        let (rows, []) = transitions.as_chunks::<6>() else {
            return Err(Refusal(14));
        };
        if rows.len() > most {
            return Err(Refusal(14));
        }
        if !(1..=8).contains(states) || u16::from(*finals) >> states != 0 {
            return Err(Refusal(15));
        }
        if !rows.iter().all(|row| exists(alphabet, *states, row)) {
            return Err(Refusal(16));
        }
        Ok((*finals, rows))
    }

    pub fn rows(&self, terminal: u8) -> &[Row] {
        let terminal = usize::from(terminal);
        &self.rows[self.starts[terminal]..self.starts[terminal + 1]]
    }

    /// The targets of the terminal's transitions whose children lie in the sets.
    pub fn step(&self, terminal: u8, sets: [u8; 4]) -> u64 {
        self.rows(terminal).iter().fold(0, |all, row| all | row.fits(sets) << row.target)
    }

    pub fn grouped(finals: u8, transitions: &[[u8; 6]]) -> Self {
        let mut starts = [0; 33];
        for transition in transitions {
            starts[usize::from(transition[0]) + 1] += 1;
        }
        for terminal in 0..32 {
            starts[terminal + 1] += starts[terminal];
        }
        let mut free = starts;
        let mut rows = vec![Row::default(); transitions.len()];
        for &[terminal, target, ref children @ ..] in transitions {
            let place = &mut free[usize::from(terminal)];
            let children = children.map(|state| if state == 0xFF { 0 } else { state });
            rows[*place] = Row { target, children };
            *place += 1;
        }
        Automaton { finals, rows, starts }
    }
}

/// Whether all that the transition names exists and what is unused is FF.
pub fn exists(
    alphabet: Alphabet,
    states: u8,
    &[terminal, target, ref children @ ..]: &[u8; 6],
) -> bool {
    let Some(rank) = alphabet.rank(terminal) else {
        return false;
    };
    let (used, unused) = children.split_at(rank);
    target < states
        && used.iter().all(|&state| state < states)
        && unused.iter().all(|&state| state == 0xFF)
}
