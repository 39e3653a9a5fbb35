//! The examples of R-8: entries redone and kept, and the order of the refusals.

use super::checker::Checker;
use super::difference::Checked;
use super::named_alphabets::{carrying, leaves};
use super::named_wide::OF_W;
use crate::generate::additions::Addition;
use crate::generate::random::Random;
use crate::hex::bytes;
use crate::limits::MOST_TRANSITIONS;

/// What stands before the alphabet in a form and behind it. Over W's alphabet, where a is 00, f is
/// 01 and h is 02: {a; h(rule 0)}, and the same with rule 0 as the start.
pub const HA: [&str; 2] =
    ["0200 0100", "00 00 00 00 FFFF FFFF FFFF FFFF, 00 02 00 00 0000 FFFF FFFF FFFF"];
const NOT_REACHED: [&str; 2] =
    ["0200 0000", "00 00 00 00 FFFF FFFF FFFF FFFF, 00 02 00 00 0000 FFFF FFFF FFFF"];
/// {h(y); a; 0(1)}.
const APPLIED: [&str; 2] = [
    "0300 0200",
    "01 02 01 00 FFFF FFFF FFFF FFFF, 00 00 00 00 FFFF FFFF FFFF FFFF, \
     02 FF 00 00 0000 0100 FFFF FFFF",
];
/// {a; h(y); 1(1(y)); 2(2(y)); 3(0); f(4, 0)}, a form of W's tree.
const CHAIN: [&str; 2] = [
    "0600 0500",
    "00 00 00 00 FFFF FFFF FFFF FFFF, 01 02 01 00 FFFF FFFF FFFF FFFF, \
     03 FF 00 00 0100 0100 FFFF FFFF, 03 FF 00 00 0200 0200 FFFF FFFF, \
     02 FF 00 00 0300 0000 FFFF FFFF, 00 01 00 00 0400 0000 FFFF FFFF",
];
/// {a; f(y, 0); f(0, y); 1(0); 2(0)}.
const OPEN: [&str; 2] = [
    "0500 0300",
    "00 00 00 00 FFFF FFFF FFFF FFFF, 01 01 01 00 FFFF 0000 FFFF FFFF, \
     01 01 02 00 0000 FFFF FFFF FFFF, 02 FF 00 00 0100 0000 FFFF FFFF, \
     02 FF 00 00 0200 0000 FFFF FFFF",
];
/// {a; h(y); f(y, 0); 1(2(y)); 2(1(y)); 3(0); 4(0)}.
const MIXED: [&str; 2] = [
    "0700 0500",
    "00 00 00 00 FFFF FFFF FFFF FFFF, 01 02 01 00 FFFF FFFF FFFF FFFF, \
     01 01 01 00 FFFF 0000 FFFF FFFF, 03 FF 00 00 0100 0200 FFFF FFFF, \
     03 FF 00 00 0200 0100 FFFF FFFF, 02 FF 00 00 0300 0000 FFFF FFFF, \
     02 FF 00 00 0400 0000 FFFF FFFF",
];
/// {a}, and {a; f(0, 0); f(1, 0); f(0, 1)}.
const LEAF: [&str; 2] = ["0100 0000", "00 00 00 00 FFFF FFFF FFFF FFFF"];
const BRANCHES: [&str; 2] = [
    "0400 0300",
    "00 00 00 00 FFFF FFFF FFFF FFFF, 00 01 00 00 0000 0000 FFFF FFFF, \
     00 01 00 00 0100 0000 FFFF FFFF, 00 01 00 00 0000 0100 FFFF FFFF",
];

/// a to 0 and to 1, h(0) to 0 and to 1, h(1) to 0, and f(0, 0) to 0 and f(0, 1) to 1.
const A0: &str = "00 00 FF FF FF FF";
const A1: &str = "00 01 FF FF FF FF";
const H00: &str = "02 00 00 FF FF FF";
const H01: &str = "02 01 00 FF FF FF";
const H10: &str = "02 00 01 FF FF FF";
const F000: &str = "01 00 00 00 FF FF";
const F011: &str = "01 01 00 01 FF FF";

/// Automata without transitions, of one state and of two; with a to 0; and W's without f, and
/// without h(1) to 0.
const ONE: &str = "01 00";
const TWO: &str = "02 01";
const OF_A: &str = "02 01, 00 00 FF FF FF FF";
const WITHOUT_F: &str = "02 01, 00 00 FF FF FF FF, 02 01 00 FF FF FF, 02 00 01 FF FF FF";
const WITHOUT_H10: &str = "02 01, 00 00 FF FF FF FF, 02 01 00 FF FF FF, 01 00 00 00 FF FF";

/// A form and an automaton, the new transition, what the slice holds, the mask, and what is left.
pub struct Added {
    pub around: [&'static str; 2],
    pub automaton: &'static str,
    pub transition: &'static str,
    pub held: &'static [u64],
    pub mask: u8,
    pub left: &'static [u64],
}

const fn added(
    (around, automaton, transition): ([&'static str; 2], &'static str, &'static str),
    held: &'static [u64],
    mask: u8,
    left: &'static [u64],
) -> Added {
    Added { around, automaton, transition, held, mask, left }
}

/// Over W's alphabet.
pub const ADDED: [Added; 22] = [
    // The rule of h is redone from what is held of a, whose later bits are not read.
    added((HA, OF_A, H01), &[1, 0, 7], 2, &[1, 2, 7]),
    added((HA, OF_A, H01), &[0x102, 0xFFFF], 0, &[0x102, 0]),
    // Both are redone, h from a as redone.
    added((HA, OF_A, A1), &[0, 0xFF], 0, &[3, 0]),
    added((HA, "02 01, 02 01 00 FF FF FF", A0), &[0, 0], 2, &[1, 2]),
    // No rule has f.
    added((HA, OF_A, F000), &[5, 0x1234], 0x34, &[5, 0x1234]),
    // A state that the automaton has not.
    added((APPLIED, ONE, A0), &[0x20, 0, 0], 0x20, &[0x20, 1, 0x20]),
    added((APPLIED, "01 00, 00 00 FF FF FF FF", H00), &[0, 1, 0], 1, &[1, 1, 1]),
    // A repeat changes nothing of the automaton, and its rules are redone all the same.
    added((HA, "02 01, 00 00 FF FF FF FF, 02 01 00 FF FF FF", H01), &[1, 0xFF], 2, &[1, 2]),
    // A rule that the start does not reach.
    added((NOT_REACHED, OF_A, H01), &[1, 0xFF00, 9], 1, &[1, 2, 9]),
    added((LEAF, OF_A, H01), &[0x1FF], 0xFF, &[0x1FF]),
    // W's relations carried over, from h through kinds 3, 2 and 0; and other numbers.
    added(
        (CHAIN, WITHOUT_F, F000),
        &[1, 0x102, 0x201, 0x201, 1, 0],
        1,
        &[1, 0x102, 0x201, 0x201, 1, 1],
    ),
    added((CHAIN, WITHOUT_H10, H10), &[1, 2, 0, 0, 0, 0], 1, &[1, 0x102, 0x201, 0x201, 1, 1]),
    added((CHAIN, WITHOUT_H10, H10), &[0x80; 7], 0, &[0x80, 0x102, 0x201, 0x201, 0, 0, 0x80]),
    added((CHAIN, OF_W, A1), &[0, 0, 0, 1 << 57, 0, 0], 0, &[3, 0, 0, 1 << 57, 0, 0]),
    added((CHAIN, OF_W, A1), &[0, 0, 0, 0x100, 0, 0, 0], 1, &[3, 0, 0, 0x100, 1, 1, 0]),
    // Open places, and the child beside them, whose later bits are not read.
    added((OPEN, OF_A, F011), &[0x201, 7, 7, 7, 7], 0, &[0x201, 0, 0x200, 0, 0]),
    added((OPEN, OF_A, F011), &[3, 7, 7, 7, 7], 2, &[3, 2, 0x200, 2, 2]),
    // States that the automaton has not, at the place between two contexts and at the leaf.
    added(
        (MIXED, ONE, F000),
        &[0x21, 1 << 40 | 0x80, 9, 9, 9, 9, 9, 9],
        0x80,
        &[0x21, 1 << 40 | 0x80, 1, 0x80, 1 << 40, 0x80, 1, 9],
    ),
    added(
        (MIXED, TWO, H01),
        &[0xFF01, 0, 1 << 63, 0, 0, 0, 0],
        0,
        &[0xFF01, 2, 1 << 63, 0, 0, 0, 0],
    ),
    added(
        (MIXED, TWO, H01),
        &[0xFF01, 0, 1 << 15, 0, 0, 0, 0],
        0,
        &[0xFF01, 2, 1 << 15, 0, 0x80, 0, 0x80],
    ),
    // Every child of a terminal is looked at.
    added((BRANCHES, OF_A, A1), &[0, 0xFF, 0xFF, 0xFF], 0, &[3, 0, 0, 0]),
    added((BRANCHES, OF_A, F000), &[1, 0, 0, 0], 1, &[1, 1, 1, 1]),
];

/// What is refused: the alphabet given, the form, the automaton, the transition, how many numbers
/// are lent, and the refusal. What is told later is wrong too, as far as it can be.
pub type Refused = (&'static str, [&'static str; 2], &'static str, &'static str, usize, u8);

/// A form that is not valid: three bytes, with W's alphabet behind them.
const CUT: [&str; 2] = ["090007", ""];

/// A transition of a terminal that does not exist.
const MISSING: &str = "03 00 FF FF FF FF";

pub const REFUSED: [Refused; 33] = [
    ("", CUT, "", "", 0, 3),
    ("", HA, OF_A, H01, 2, 3),
    ("05", CUT, "", "", 0, 4),
    ("00 02 05", HA, OF_A, H01, 2, 4),
    ("00 02 01", CUT, "", "", 0, 14),
    ("00 02 01", CUT, "09", "", 0, 14),
    ("00 02 01", CUT, "09 01 00 00 FF FF FF", "", 0, 14),
    ("00 02 01", HA, "02 01 00 00 FF FF FF", "00 00 FF FF FF FF", 2, 14),
    // The old automaton is looked at before the new transition.
    ("00 02 01", CUT, "00 00, 03 00 FF FF FF FF", "", 0, 15),
    ("00 02 01", CUT, "09 01", "", 0, 15),
    ("00 02 01", HA, "02 04", H01, 2, 15),
    ("00 02 01", CUT, "02 01, 03 00 FF FF FF FF", "", 0, 16),
    ("00 02 01", HA, "02 01, 00 02 FF FF FF FF", H01, 2, 16),
    // Other lengths than 6, before the form.
    ("00 02 01", CUT, OF_A, "", 0, 29),
    ("00 02 01", CUT, OF_A, "02 01 00 FF FF", 0, 29),
    ("00 02 01", HA, OF_A, "02 01 00 FF FF", 2, 29),
    ("00 02 01", HA, OF_A, "02 01 00 FF FF FF FF", 2, 29),
    ("00 02 01", HA, OF_A, "02 01 00 FF FF FF, 02 01 00 FF FF FF", 2, 29),
    ("00 02 01", HA, OF_A, "FF FF FF FF FF FF", 2, 29),
    // No such terminal, target and child, and what is unused not FF.
    ("00 02 01", CUT, OF_A, MISSING, 0, 29),
    ("00 02 01", HA, OF_A, "20 00 FF FF FF FF", 2, 29),
    ("00 02 01", HA, OF_A, "02 02 00 FF FF FF", 2, 29),
    ("00 02 01", HA, OF_A, "02 01 02 FF FF FF", 2, 29),
    ("00 02 01", HA, OF_A, "01 01 00 02 FF FF", 2, 29),
    ("00 02 01", HA, OF_A, "02 01 FF FF FF FF", 2, 29),
    ("00 02 01", HA, OF_A, "02 01 00 00 FF FF", 2, 29),
    ("00 02 01", HA, OF_A, "00 01 FF FF FF 00", 2, 29),
    // Then the form, its alphabet and the slice.
    ("00 01 02", CUT, "02 01", A0, 0, 18),
    ("00 02 01", CUT, OF_A, H01, 2, 18),
    ("00 01 02", HA, "02 01", A0, 0, 28),
    ("00 02", HA, "02 01", A0, 2, 28),
    ("00 02 01", HA, OF_A, H01, 0, 19),
    ("00 02 01", HA, OF_A, F000, 1, 19),
];

impl Added {
    /// What the call is given.
    pub fn addition(&self) -> Addition {
        addition("00 02 01", self.around, self.automaton, self.transition)
    }
}

/// What the call is given, with W's alphabet in the form's head.
pub fn addition(alphabet: &str, around: [&str; 2], automaton: &str, transition: &str) -> Addition {
    Addition {
        alphabet: bytes(alphabet),
        form: carrying("03 00 02 01", around),
        automaton: bytes(automaton),
        transition: bytes(transition),
    }
}

/// An automaton with so many states and so many times this transition.
pub fn repeated(states: u8, transition: &str, times: usize) -> String {
    format!("{states:02X} 01 {}", transition.repeat(times))
}

/// Numbers of transitions around the limit. The last two are too many for one more.
pub const TIMES: [usize; 5] = [0, 1, MOST_TRANSITIONS - 1, MOST_TRANSITIONS, MOST_TRANSITIONS + 1];

impl Checker<'_> {
    pub fn named_adding(&mut self, random: &mut Random) -> Checked<()> {
        for example in ADDED {
            let addition = example.addition();
            self.add(random, &addition, example.held, example.held.len())?;
            self.additions(random, &addition)?;
        }
        for (alphabet, around, automaton, transition, numbers, _) in REFUSED {
            let addition = addition(alphabet, around, automaton, transition);
            self.add(random, &addition, &[1, 2, 3], numbers)?;
        }
        self.named_limits(random)?;
        self.named_states(random)?;
        for addition in [of_most_rules(), far_below()] {
            self.additions(random, &addition)?;
        }
        Ok(())
    }

    /// Automata with no transition, with as many as there may be, and with one less and one more.
    /// They are told to be too long before anything else of them, of the transition and of the
    /// form.
    fn named_limits(&mut self, random: &mut Random) -> Checked<()> {
        for (states, row) in [(2, A0), (2, MISSING), (0, A0), (9, A0)] {
            for automaton in TIMES.map(|times| repeated(states, row, times)) {
                for transition in [A1, H01, "", "02 01 00 FF FF", MISSING] {
                    for around in [HA, CUT] {
                        let addition = addition("00 02 01", around, &automaton, transition);
                        self.add(random, &addition, &[1, 2, 3], 3)?;
                    }
                }
            }
        }
        Ok(())
    }

    /// Transitions with the last state of the automaton and with the next one.
    fn named_states(&mut self, random: &mut Random) -> Checked<()> {
        for states in 1..=8 {
            for (target, child) in [(1, 1), (0, 1), (1, 0)] {
                let (target, child) = (states - target, states - child);
                let transition = format!("02 {target:02X} {child:02X} FF FF FF");
                let automaton = repeated(states, A0, 1);
                let addition = addition("00 02 01", HA, &automaton, &transition);
                self.add(random, &addition, &[0xFF; 2], 2)?;
            }
        }
        Ok(())
    }
}

/// 2,048 rules that are all redone.
fn of_most_rules() -> Addition {
    let form = leaves(2048, 1);
    Addition { alphabet: vec![0], form, automaton: vec![1, 0], transition: bytes(A0) }
}

/// 2,048 rules, of which the second is f(0, 0), the last is h over the second and all others are a:
/// these two are redone.
fn far_below() -> Addition {
    let (leaf, last) = (LEAF[1], "00 02 00 00 0100 FFFF FFFF FFFF");
    let rules = [leaf, "00 01 00 00 0000 0000 FFFF FFFF", &leaf.repeat(2045), last].concat();
    addition("00 02 01", ["0008 FF07", &rules], OF_A, F000)
}
