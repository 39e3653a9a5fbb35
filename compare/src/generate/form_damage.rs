//! Damaged forms.

use super::bytes;
use super::head_damage;
use super::random::Random;
use crate::reference::head::{end, rules_behind};

/// A form with one or two things wrong, as a rule.
pub fn damaged(random: &mut Random, form: &[u8]) -> Vec<u8> {
    let mut form = form.to_vec();
    for _ in 0..random.between(1, 2) {
        match random.below(8) {
            0 => form = bytes::damaged(random, &form),
            1 => length(random, &mut form),
            2 => head_damage::numbers(random, &mut form),
            3 | 4 => head_damage::alphabet(random, &mut form),
            _ => rule(random, &mut form),
        }
    }
    form
}

/// Writes a two-byte number.
pub fn set(form: &mut [u8], at: usize, number: usize) {
    form[at..at + 2].copy_from_slice(&(number as u16).to_le_bytes());
}

/// A form that is too short or too long for its head, or whose rules lie one byte off.
fn length(random: &mut Random, form: &mut Vec<u8>) {
    let (head, whole) = (end(form), form.len());
    if rules_behind(form) == 0 {
        return;
    }
    match random.below(6) {
        0 => form.truncate(whole - 1),
        1 => form.push(*random.pick(&[0, 0xFF])),
        2 => form.truncate(whole - 12),
        // As long as the head would have it without its alphabet.
        3 => form.truncate(whole - (head - 4).min(whole)),
        // The length is right, and every rule begins with another's last byte or its own second.
        4 => form[head..].rotate_right(1),
        _ => form[head..].rotate_left(1),
    }
}

/// A wrong field in some rule.
fn rule(random: &mut Random, form: &mut [u8]) {
    let (head, count) = (end(form), rules_behind(form));
    if count == 0 {
        return;
    }
    let number = random.below(count);
    let at = head + 12 * number;
    match random.below(6) {
        0 => form[at] = random.between(0, 5) as u8,
        1 => form[at + 1] = *random.pick(&[0, 1, 2, 3, 0x1F, 0x20, 0xFE, 0xFF]),
        2 => form[at + 2] = random.between(0, 5) as u8,
        3 => form[at + 3] = *random.pick(&[0, 1, 0xFF]),
        _ => {
            let slot = at + 4 + 2 * random.below(4);
            let lower = random.below(number + 1);
            let numbers = [lower, number, number + 1, 0xFFFF, 0x00FF, 0xFF00];
            set(form, slot, *random.pick(&numbers));
        }
    }
}
