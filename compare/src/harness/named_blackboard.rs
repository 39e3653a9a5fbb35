//! The examples of R-7: the tables of rules, and the lengths of the slice they are written to.

use super::checker::Checker;
use super::difference::Checked;
use super::lending::Lent;
use super::named_wide::{OF_W, sheet};
use crate::generate::random::Random;
use crate::reference::blackboard::TABLE;
use crate::reference::calls::joined;
use crate::reference::facts::Facts;
use crate::rows;

/// The row that has a sheet of 64 rules, for which 262,144 bytes are lent.
const MOST_RULES: &str = "6 not given, 64 times 00 01 00";

/// Rules and an automaton, the mask, and for each rule the bytes that are not 0 by their places.
pub struct Board {
    pub rules: &'static str,
    pub automaton: &'static str,
    pub mask: u8,
    pub tables: &'static [&'static [(usize, u8)]],
}

/// One state, and a to it.
const LEAF: &str = "01 01, 00 00 FF FF FF FF";
/// K6's automaton: a to 0, a to 1, f(0,1) to 0.
const K6: &str = "02 01, 00 00 FF FF FF FF, 00 01 FF FF FF FF, 01 00 00 01 FF FF";
/// a to 0; f(0,1) and f(1,0) to 0.
const UNEQUAL: &str = "02 01, 00 00 FF FF FF FF, 01 00 00 01 FF FF, 01 00 01 00 FF FF";
/// f(0,1) to 0, f(1,0) to 1, and none for a.
const ORDERED: &str = "02 01, 01 00 00 01 FF FF, 01 01 01 00 FF FF";
/// Eight states: a to 7, and h from each to the next, from 7 to 0.
const ROUND: &str = "08 01, 00 07 FF FF FF FF, \
    02 01 00 FF FF FF, 02 02 01 FF FF FF, 02 03 02 FF FF FF, 02 04 03 FF FF FF, \
    02 05 04 FF FF FF, 02 06 05 FF FF FF, 02 07 06 FF FF FF, 02 00 07 FF FF FF";
/// Two states without transitions.
const NONE: &str = "02 01";

const fn board(
    rules: &'static str,
    automaton: &'static str,
    mask: u8,
    tables: &'static [&'static [(usize, u8)]],
) -> Board {
    Board { rules, automaton, mask, tables }
}

/// Over W's alphabet, where a is 00, f is 01 and h is 02.
pub const BOARDS: [Board; 31] = [
    // W's own rules, and the same without transitions.
    board(
        "01 03 02 02 80, 02 04 01 40 81 80, 00 04 41 00 40 00",
        OF_W,
        1,
        &[&[(0, 1), (1, 2)], &[(0, 1)], &[(0, 1)]],
    ),
    board("01 03 02 02 80, 02 04 01 40 81 80, 00 04 41 00 40 00", NONE, 0, &[&[], &[], &[]]),
    // Rank 0 alone, with two states at the root, and never called.
    board("00 01 00", OF_W, 1, &[&[(0, 1)]]),
    board("00 01 00", K6, 3, &[&[(0, 3)]]),
    board("00 02 02 00, 00 01 00", OF_W, 1, &[&[(0, 2)], &[(0, 1)]]),
    // A lone parameter is the identity on the states that there are, also without transitions.
    board("01 01 80, 00 02 40 00", OF_W, 1, &[&[(0, 1), (1, 2)], &[(0, 1)]]),
    board("01 01 80, 00 02 40 00", NONE, 0, &[&[(0, 1), (1, 2)], &[]]),
    board("01 01 80, 00 02 40 00", LEAF, 1, &[&[(0, 1)], &[(0, 1)]]),
    // All eight states.
    board(
        "01 02 02 80, 00 02 40 00",
        ROUND,
        1,
        &[&[(0, 2), (1, 4), (2, 8), (3, 0x10), (4, 0x20), (5, 0x40), (6, 0x80), (7, 1)], &[(0, 1)]],
    ),
    // The second parameter is left out, or handed to a rule that drops it: free over both states.
    board(
        "02 01 80, 02 03 40 80 81, 00 04 41 00 02 00",
        OF_W,
        1,
        &[&[(0, 1), (1, 2), (8, 1), (9, 2)], &[(0, 1), (1, 2), (8, 1), (9, 2)], &[(0, 1)]],
    ),
    // The same with the parameters handed on in the other order.
    board(
        "02 01 80, 02 03 40 81 80, 00 04 41 00 02 00",
        OF_W,
        2,
        &[&[(0, 1), (1, 2), (8, 1), (9, 2)], &[(0, 1), (1, 1), (8, 2), (9, 2)], &[(0, 2)]],
    ),
    // All parameters are left out, over a tree with a run and over one without.
    board("01 01 00, 00 02 40 00", OF_W, 1, &[&[(0, 1), (1, 1)], &[(0, 1)]]),
    board("01 02 02 00, 00 02 40 00", LEAF, 0, &[&[], &[]]),
    board(
        "03 01 00, 00 01 00",
        OF_W,
        1,
        &[&[(0, 1), (1, 1), (8, 1), (9, 1), (64, 1), (65, 1), (72, 1), (73, 1)], &[(0, 1)]],
    ),
    // h(a) has no run: dropped, dropped through a callee, dropped in what is dropped, and present.
    board("01 01 00, 00 03 40 02 00", LEAF, 1, &[&[(0, 1)], &[(0, 1)]]),
    board("01 01 00, 01 02 40 80, 00 03 41 02 00", LEAF, 1, &[&[(0, 1)], &[(0, 1)], &[(0, 1)]]),
    board("02 01 80, 00 06 40 00 40 02 00 00", LEAF, 1, &[&[(0, 1)], &[(0, 1)]]),
    board("01 01 80, 00 03 40 02 00", LEAF, 0, &[&[(0, 1)], &[]]),
    // The rule's own dropped argument has no run, and the rule still has one.
    board("02 01 81, 01 04 40 02 00 80, 00 02 41 00", LEAF, 1, &[&[(0, 1)], &[(0, 1)], &[(0, 1)]]),
    // A parameter stands where no run leads on, and the rule has none.
    board("01 02 02 80, 00 01 00", LEAF, 1, &[&[], &[(0, 1)]]),
    // K6, and its f as a rule.
    board("00 03 01 00 00", K6, 1, &[&[(0, 1)]]),
    board("02 03 01 80 81, 00 03 40 00 00", K6, 1, &[&[(8, 1)], &[(0, 1)]]),
    // K8, and its rule where f tells its children apart.
    board("02 03 01 81 80, 00 04 40 00 02 00", OF_W, 0, &[&[(0, 1)], &[]]),
    board("02 03 01 81 80, 00 03 40 00 00", ORDERED, 0, &[&[(1, 1), (8, 2)], &[]]),
    board("02 03 01 80 81, 00 03 40 00 00", ORDERED, 0, &[&[(8, 1), (1, 2)], &[]]),
    // Both states are right at each parameter, but only unequal ones together.
    board("02 03 01 80 81, 00 03 40 00 00", UNEQUAL, 0, &[&[(1, 1), (8, 1)], &[]]),
    board(
        "02 03 01 80 81, 02 03 40 81 80, 00 03 41 00 00",
        UNEQUAL,
        0,
        &[&[(1, 1), (8, 1)], &[(1, 1), (8, 1)], &[]],
    ),
    // f(y1, f(y2, y3)) and f(f(y4, y3), f(y2, y1)).
    board("03 05 01 80 01 81 82, 00 01 00", ORDERED, 0, &[&[(8, 1), (65, 2)], &[]]),
    board("04 07 01 01 83 82 01 81 80, 00 01 00", ORDERED, 0, &[&[(72, 1), (513, 2)], &[]]),
    // f(y3, y1), called with a, which has no run, for the second; and for the third.
    board(
        "03 03 01 82 80, 02 04 40 80 00 81, 02 05 40 80 02 81 00, 00 01 00",
        ORDERED,
        0,
        &[&[(1, 1), (9, 1), (64, 2), (72, 2)], &[(1, 1), (8, 2)], &[], &[]],
    ),
    // The fourth parameter is written and absent through two callees; the third is left out.
    board(
        "02 01 80, 02 03 40 80 81, 04 05 01 80 41 81 83, 00 01 00",
        ORDERED,
        0,
        &[
            &[(0, 1), (1, 2), (8, 1), (9, 2)],
            &[(0, 1), (1, 2), (8, 1), (9, 2)],
            &[(1, 2), (65, 2), (513, 2), (577, 2), (8, 1), (72, 1), (520, 1), (584, 1)],
            &[],
        ],
    ),
];

/// The sheet of a rule that is this lone parameter, numbered from 0, and of a start that does not
/// call it, with so many states and no transition.
pub fn lone(rank: u8, parameter: u8, states: u8) -> Vec<u8> {
    joined(&[&[0], &[rank, 1, 0x80 + parameter, 0, 1, 0], &[states, 0]])
}

impl Checker<'_> {
    pub fn named_blackboard(&mut self, random: &mut Random) -> Checked<()> {
        for board in BOARDS {
            self.sheet(random, &sheet(board.rules, board.automaton))?;
        }
        self.sheet(random, &rows::sheet(MOST_RULES))?;
        for rank in 1..=4 {
            for parameter in 0..rank {
                for states in 1..=8 {
                    let sheet = lone(rank, parameter, states);
                    self.blackboards(random, &sheet, &Facts::of(&sheet), None)?;
                }
            }
        }
        self.named_lengths(random)
    }

    /// Slices of every length that matters for W, and of none and of many bytes for sheets that are
    /// refused otherwise.
    fn named_lengths(&mut self, random: &mut Random) -> Checked<()> {
        let need = 3 * TABLE;
        let lengths =
            [0, 1, TABLE - 1, TABLE, 2 * TABLE, need - 1, need, need + 1, need + 2, need + TABLE];
        for name in ["K1 W", "1 empty", "14 W less its last byte", "16 b34=03"] {
            let sheet = rows::sheet(name);
            let facts = Facts::of(&sheet);
            for length in lengths {
                self.blackboard(&sheet, &facts, &Lent::new(random, length, 0))?;
            }
        }
        Ok(())
    }
}
