//! Source document 003, Theorem 1, straight on the grammar. For each rule and each choice of states
//! at its parameters, the states in which a run may end at its root. A parameter that does not
//! stand in what the rule derives is free: no run is asked of its argument.

use super::automaton::{Automaton, has};
use super::presence::Presence;
use super::rules::Rule;
use super::term::Term;

/// The sets of root states of one rule, for the tuples of parameter states counted with the
/// first parameter's state as the lowest digit.
pub type Table = Vec<u8>;

/// State 0 alone. It stands for all states where the state does not matter.
const FREE: u8 = 1;

/// The mask of the sheet's tree.
pub fn mask(automaton: &Automaton, rules: &[Rule]) -> u8 {
    mask_by(&tables(automaton, rules))
}

/// The same where the tables are known: the start has one tuple, of no states.
pub fn mask_by(tables: &[Table]) -> u8 {
    tables.last().expect("a sheet has a rule")[0]
}

/// The tables of all rules.
pub fn tables(automaton: &Automaton, rules: &[Rule]) -> Vec<Table> {
    let mut method = Method { automaton, presence: Presence::of(rules), tables: Vec::new() };
    for rule in rules {
        let table = method.table(rule);
        method.tables.push(table);
    }
    method.tables
}

/// The states at the parameters in the tuple of this number.
pub fn entered(states: u8, rank: usize, tuple: usize) -> Vec<u8> {
    let states = usize::from(states);
    let digit = |place: usize| (tuple / states.pow(place as u32) % states) as u8;
    (0..rank).map(digit).collect()
}

/// The tables of the rules so far.
struct Method<'s> {
    automaton: &'s Automaton,
    presence: Presence,
    tables: Vec<Table>,
}

impl Method<'_> {
    fn table(&self, rule: &Rule) -> Table {
        let states = self.automaton.states;
        let tuples = usize::from(states).pow(rule.rank as u32);
        let entry = |tuple: usize| {
            let entered = entered(states, rule.rank, tuple);
            self.root_states(&rule.right, &entered)
        };
        (0..tuples).map(entry).collect()
    }

    /// The states a run may give the term's root when it enters the parameters in these states.
    fn root_states(&self, term: &Term, entered: &[u8]) -> u8 {
        let of_child = |child: &Term| self.root_states(child, entered);
        match term {
            Term::Parameter(parameter) => 1 << entered[*parameter],
            Term::Terminal(terminal, children) => {
                let sets: Vec<u8> = children.iter().map(of_child).collect();
                self.automaton.step(*terminal, &sets)
            }
            Term::Call(rule, arguments) => {
                let of_argument = |(place, argument): (usize, &Term)| {
                    if self.presence.is_present(*rule, place) { of_child(argument) } else { FREE }
                };
                let sets: Vec<u8> = arguments.iter().enumerate().map(of_argument).collect();
                union(&self.tables[*rule], usize::from(self.automaton.states), &sets)
            }
        }
    }
}

/// The union of the table's entries over all tuples with each state in its set.
fn union(table: &[u8], states: usize, sets: &[u8]) -> u8 {
    let Some((last, others)) = sets.split_last() else {
        return table[0];
    };
    let part = table.len() / states;
    (0..states)
        .filter(|&state| has(*last, state as u8))
        .map(|state| union(&table[state * part..(state + 1) * part], states, others))
        .fold(0, |all, some| all | some)
}
