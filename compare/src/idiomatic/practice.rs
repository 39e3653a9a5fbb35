//! A practice sheet. Its rules are drawn into a local array, since their length must be known before
//! the first byte of the slice is written.

use super::alphabet::Alphabet;
use super::automaton::Automaton;
use super::wrapping::frame;
use crate::refusal::{Answer, Refusal};

/// a, h and f.
const ALPHABET: [u8; 3] = [0, 1, 2];

/// h(y1), with rank and node count.
const FIRST_RULE: [u8; 4] = [1, 2, 1, 0x80];

/// The bytes of twenty drawn rules of six bytes each, and of the first and the last rule.
const LONGEST_RULES: usize = 128;

struct Draws {
    x: u32,
}

impl Draws {
    fn draw(&mut self) -> u32 {
        self.x = self.x.wrapping_mul(1_664_525).wrapping_add(1_013_904_223);
        self.x >> 16
    }

    /// The call of a rule below this one.
    fn call(&mut self, rule: u8) -> u8 {
        0x40 + (self.draw() % u32::from(rule)) as u8
    }
}

/// The bytes of rules, one behind the other.
struct Rules {
    bytes: [u8; LONGEST_RULES],
    length: usize,
}

impl Rules {
    fn push<const N: usize>(&mut self, rule: [u8; N]) {
        self.bytes[self.length..self.length + N].copy_from_slice(&rule);
        self.length += N;
    }

    fn drawn(first: u32, m: u8) -> Rules {
        let mut rules = Rules { bytes: [0; LONGEST_RULES], length: 0 };
        let mut draws = Draws { x: first };
        rules.push(FIRST_RULE);
        for rule in 1..=m {
            let odd = draws.draw() & 1 == 1;
            let outer = draws.call(rule);
            if odd {
                rules.push([1, 4, 2, outer, 0x80, 0]);
            } else {
                rules.push([1, 3, outer, draws.call(rule), 0x80]);
            }
        }
        rules.push([0, 2, 0x40 + m, 0]);
        rules
    }
}

/// Writes the sheet at the slice's front and answers its length.
pub fn practice(first: u32, m: usize, automaton: &[u8], sheet: &mut [u8]) -> Answer<usize> {
    let m = match m {
        1..=20 => m as u8,
        _ => return Err(Refusal(27)),
    };
    Automaton::check(Alphabet::read(&ALPHABET)?, automaton)?;
    let rules = Rules::drawn(first, m);
    let (written, place) = frame(&ALPHABET, rules.length, automaton, sheet)?;
    place.copy_from_slice(&rules.bytes[..rules.length]);
    Ok(written)
}
