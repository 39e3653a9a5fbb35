//! Lawful alphabets that differ from the one in a form's head.

use super::forms::uses;
use super::random::Random;
use crate::reference::head;

/// A lawful alphabet to give with a lawful form of another one: with more or fewer terminals and
/// else the same, with another rank, with the ranks in another order, or any. In a few cases there
/// is no alphabet of the kind, and the form's own comes back.
pub fn other(random: &mut Random, form: &[u8]) -> Vec<u8> {
    let own = head::ranks(form).expect("a lawful form has a head").to_vec();
    match random.below(8) {
        0 | 1 => longer(random, own),
        2 | 3 => shorter(random, own),
        4 => with_another_rank(random, form, own, true),
        5 => with_another_rank(random, form, own, false),
        6 => in_another_order(random, own),
        _ => super::alphabets::alphabet(random),
    }
}

/// One terminal more, or as many as there may be.
fn longer(random: &mut Random, own: Vec<u8>) -> Vec<u8> {
    let length = *random.pick(&[own.len() + 1, 32]);
    let mut ranks = own;
    ranks.resize(length.min(32), random.between(0, 4) as u8);
    ranks
}

/// The first terminals only.
fn shorter(random: &mut Random, own: Vec<u8>) -> Vec<u8> {
    let less = own.len().saturating_sub(1).max(1);
    let any = random.between(1, less);
    let mut ranks = own;
    ranks.truncate(*random.pick(&[less, any]));
    ranks
}

/// Another rank of a terminal that some rule of the form has, or that none has; mostly of one of
/// the last, where a comparison that stops too soon does not come.
fn with_another_rank(random: &mut Random, form: &[u8], own: Vec<u8>, used: bool) -> Vec<u8> {
    let mut ranks = own;
    let wanted = |place: &usize| uses(form, *place as u8) == used;
    let places: Vec<usize> = (0..ranks.len()).filter(wanted).collect();
    if !places.is_empty() {
        let rank = &mut ranks[*random.pick_late(&places)];
        *rank = (*rank + random.between(1, 4) as u8) % 5;
    }
    ranks
}

fn in_another_order(random: &mut Random, own: Vec<u8>) -> Vec<u8> {
    let mut ranks = own;
    match random.below(3) {
        0 => ranks.reverse(),
        1 => ranks.rotate_left(1),
        _ => random.shuffle(&mut ranks),
    }
    ranks
}
