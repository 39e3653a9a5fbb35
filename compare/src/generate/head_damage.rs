//! Damaged heads of forms.

use super::form_damage::set;
use super::forms::uses;
use super::random::Random;
use crate::reference::head::{RANKS_AT, TERMINALS_AT, end, rules_behind};

/// A wrong rule count or start; a count may also come with bytes to fit.
pub fn numbers(random: &mut Random, form: &mut Vec<u8>) {
    let (head, count) = (end(form), rules_behind(form));
    if count == 0 {
        return;
    }
    match random.below(6) {
        0 => set(form, 0, 0),
        1 => set(form, 0, *random.pick(&[count - 1, count + 1, 2048, 2049, 0xFFFF])),
        2 => set(form, 2, *random.pick(&[count, count + 1, 0xFFFF])),
        3 => set(form, 2, random.below(count)),
        4 => {
            form.truncate(head + 12 * (count - 1));
            set(form, 0, count - 1);
        }
        _ => {
            // 2,049 rules, all lawful: only their number is wrong.
            let first = form[head..head + 12].to_vec();
            while form.len() < head + 12 * 2049 {
                form.extend(&first);
            }
            form.truncate(head + 12 * 2049);
            set(form, 0, 2049);
        }
    }
}

/// Another terminal count or another rank, or no alphabet in the head. The form may be valid still:
/// then it is one over another alphabet.
pub fn alphabet(random: &mut Random, form: &mut Vec<u8>) {
    if rules_behind(form) == 0 {
        return;
    }
    match random.below(5) {
        0 => terminal_count(random, form),
        1 | 2 => terminals(random, form),
        3 => rank(random, form),
        // A form as it was saved before heads had an alphabet.
        _ => drop(form.drain(TERMINALS_AT..end(form))),
    }
}

/// Another terminal count, with as many rank bytes as before.
fn terminal_count(random: &mut Random, form: &mut [u8]) {
    let count = form[TERMINALS_AT];
    let (less, more) = (count.saturating_sub(1), count.saturating_add(1));
    form[TERMINALS_AT] = *random.pick(&[0, less, more, more, 32, 33, 0xFF]);
}

/// Another terminal count, with rank bytes to fit: none, one less, one more, or 32 to 34.
fn terminals(random: &mut Random, form: &mut Vec<u8>) {
    let mut ranks = form[RANKS_AT..end(form)].to_vec();
    let rank = random.between(0, 4) as u8;
    let (less, more) = (ranks.len().saturating_sub(1), ranks.len() + 1);
    let count = *random.pick(&[0, less, more, more, 32, 33, 33, 34]);
    ranks.resize(count, rank);
    form.splice(TERMINALS_AT..end(form), [vec![count as u8], ranks].concat());
}

/// Another rank of a terminal, one over 4 or not; terminals that no rule has are struck as often as
/// others.
fn rank(random: &mut Random, form: &mut [u8]) {
    let wanted = random.one_in(2);
    let places: Vec<usize> = (RANKS_AT..end(form))
        .filter(|place| uses(form, (place - RANKS_AT) as u8) == wanted)
        .collect();
    if !places.is_empty() {
        let place = *random.pick(&places);
        let rank = random.between(0, 4) as u8;
        form[place] = *random.pick(&[rank, rank, 5, 6, 0xFF]);
    }
}
