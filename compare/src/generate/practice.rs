//! What practice sheets are made of: first x, numbers of drawn rules, and automata.

use super::automata;
use super::random::Random;
use crate::hex::bytes;
use crate::reference::practice::ALPHABET;

pub struct Practice {
    pub first: u32,
    pub m: usize,
    pub automaton: Vec<u8>,
}

/// W's automaton with the terminals of practice sheets: h is 1 and f is 2.
pub fn like_w() -> Vec<u8> {
    bytes("02 01, 00 00 FF FF FF FF, 01 01 00 FF FF FF, 01 00 01 FF FF FF, 02 00 00 00 FF FF")
}

/// Alphabets with one more terminal, with other ranks, and W's. Most of their automata have a
/// transition that is wrong here.
const OTHERS: [&[u8]; 9] = [
    &[0, 1, 2, 0],
    &[0, 1, 2, 4],
    &[0, 2, 1],
    &[0, 2, 2],
    &[0, 0, 2],
    &[0, 1, 1],
    &[0, 1, 3],
    &[1, 1, 2],
    &[4, 4, 4],
];

pub fn practice(random: &mut Random) -> Practice {
    Practice { first: first(random), m: m(random), automaton: automaton(random) }
}

/// The first x, often at the end of a range, and of every number of bits.
fn first(random: &mut Random) -> u32 {
    let any = random.word() as u32;
    match random.below(3) {
        0 => *random.pick(&[0, 1, 2, 65_535, 65_536, (1 << 31) - 1, 1 << 31, u32::MAX]),
        1 => any >> random.below(32),
        _ => any,
    }
}

/// How many rules are drawn, mostly a number from 1 to 20.
fn m(random: &mut Random) -> usize {
    match random.below(6) {
        0 => outside(random),
        1 | 2 => *random.pick(&[1, 2, 3, 10, 19, 20]),
        _ => random.between(1, 20),
    }
}

/// 0 or a number over 20, often with the low bits of one from 1 to 20.
fn outside(random: &mut Random) -> usize {
    let low = random.between(0, 20) as u64;
    let base = *random.pick(&[256, 1 << 16, 1 << 32]);
    *random.pick(&[0, 21, 22, 84, 255, base, base + 1, base + low, u64::MAX]) as usize
}

/// An automaton over the alphabet of practice sheets, a damaged one, or one for other terminals.
fn automaton(random: &mut Random) -> Vec<u8> {
    match random.below(6) {
        0 => {
            let lawful = automata::automaton(random, &ALPHABET);
            automata::damaged(random, &lawful)
        }
        1 => {
            let other = *random.pick(&OTHERS);
            automata::automaton(random, other)
        }
        _ => automata::automaton(random, &ALPHABET),
    }
}
