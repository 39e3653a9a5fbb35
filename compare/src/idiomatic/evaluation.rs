//! The relations of a form's rules, as 64-bit numbers of eight lanes.

use super::automaton::Automaton;
use super::form::{Form, FormRule};

/// Bit 0 of each lane.
pub const LANES: u64 = 0x0101_0101_0101_0101;

/// Each set of states with bit i moved to bit 8i.
const SPREAD: [u64; 256] = spread();

const fn spread() -> [u64; 256] {
    let mut table = [0; 256];
    let mut set = 0;
    while set < 256 {
        let mut state = 0;
        while state < 8 {
            table[set] |= ((set as u64 >> state) & 1) << (8 * state);
            state += 1;
        }
        set += 1;
    }
    table
}

/// Fills the slice's front with the rules' relations and answers the start's mask.
pub fn evaluate(automaton: &Automaton, form: &Form, relations: &mut [u64]) -> u8 {
    for (number, rule) in form.rules.iter().enumerate() {
        relations[number] = relation(automaton, rule, relations);
    }
    relations[usize::from(form.start)] as u8
}

/// The relation of a rule by those of the rules below it.
pub fn relation(automaton: &Automaton, rule: &FormRule, lower: &[u64]) -> u64 {
    match *rule {
        FormRule::Tree { terminal, slots } => automaton.step(terminal, sets(&slots, lower)),
        FormRule::Context { terminal, hole, slots } => {
            let sets = sets(&slots, lower);
            automaton.rows(terminal).iter().fold(0, |all, row| {
                let entered = row.children[usize::from(hole - 1)];
                all | row.fits(sets) << (8 * entered + row.target)
            })
        }
        FormRule::Applied { outer, inner } => {
            apply(lower[usize::from(outer)], lower[usize::from(inner)] as u8)
        }
        FormRule::Composed { outer, inner } => {
            compose(lower[usize::from(outer)], lower[usize::from(inner)])
        }
    }
}

/// The children's sets; all states for unused and open places.
fn sets(slots: &[u16; 4], lower: &[u64]) -> [u8; 4] {
    slots.map(|slot| if slot == 0xFFFF { 0xFF } else { lower[usize::from(slot)] as u8 })
}

/// The union of the relation's lanes whose state is in the set.
pub fn apply(relation: u64, set: u8) -> u64 {
    let mut lanes = relation & (SPREAD[usize::from(set)] * 0xFF);
    lanes |= lanes >> 32;
    lanes |= lanes >> 16;
    lanes |= lanes >> 8;
    lanes & 0xFF
}

/// In each lane of the inner relation, every state r becomes lane r of the outer one.
fn compose(outer: u64, inner: u64) -> u64 {
    (0..8)
        .fold(0, |all, state| all | (((inner >> state) & LANES) * ((outer >> (8 * state)) & 0xFF)))
}
