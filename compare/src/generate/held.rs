//! What lent numbers hold before a transition is added.

use super::random::Random;

/// As many numbers as there are relations of the old automaton: nothing, everything, any numbers,
/// and the relations themselves with bits that they cannot have or with some of them forgotten.
pub fn numbers(random: &mut Random, relations: &[u64]) -> Vec<u64> {
    let kind = random.below(8);
    relations.iter().map(|&relation| number(random, relation, kind)).collect()
}

fn number(random: &mut Random, relation: u64, kind: usize) -> u64 {
    let any = random.word();
    match kind {
        0 => 0,
        1 => u64::MAX,
        2 => any,
        // Few bits, so that it matters which ones are read.
        3 => any & random.word() & random.word() & random.word(),
        // One bit of a state at the hole and at the root.
        4 => 1 << random.below(64),
        // Only the bits that a rule of rank 0 may have, and only those that it may not have.
        5 => any & 0xFF,
        6 => relation | any & !0xFF,
        _ => *random.pick(&[relation, relation, 0, any]),
    }
}
