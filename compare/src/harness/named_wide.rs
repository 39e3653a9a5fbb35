//! The examples of R-3: rules that leave out parameters, and right sides of one parameter.

use super::checker::Checker;
use super::difference::Checked;
use crate::generate::random::Random;
use crate::hex::bytes;
use crate::reference::calls::joined;
use crate::reference::sheet::Sheet;
use crate::rows;

/// W's automaton, and one with the transition of a to 0 only.
pub const OF_W: &str =
    "02 01, 00 00 FF FF FF FF, 02 01 00 FF FF FF, 02 00 01 FF FF FF, 01 00 00 00 FF FF";
const LEAVES_ONLY: &str = "02 01, 00 00 FF FF FF FF";

/// Rules over W's alphabet, where a is 00, f is 01 and h is 02; an automaton; and the line that
/// program `mark` prints for the sheet.
pub const WIDE: [(&str, &str, &str); 25] = [
    // A lone parameter, on a.
    ("01 01 80, 00 02 40 00", OF_W, "accepted 1 1"),
    // One that drops h(a).
    ("02 01 80, 00 04 40 00 02 00", OF_W, "accepted 1 1"),
    ("02 01 81, 00 04 40 00 02 00", OF_W, "declined 2 2"),
    // The same through a callee, which is handed what it drops.
    ("02 01 80, 02 03 40 80 81, 00 04 41 00 02 00", OF_W, "accepted 1 1"),
    ("02 01 80, 02 03 40 81 80, 00 04 41 00 02 00", OF_W, "declined 2 2"),
    // Second occurrences: the second in a dropped argument, the first, or both.
    ("02 01 80, 01 03 40 80 80, 00 01 00", OF_W, "refused 11"),
    ("02 01 81, 01 03 40 80 80, 00 01 00", OF_W, "refused 11"),
    ("02 01 80, 01 05 40 00 01 80 80, 00 01 00", OF_W, "refused 11"),
    // A rule of rank 1 has no second parameter, also in a dropped argument.
    ("02 01 80, 01 03 40 80 81, 00 01 00", OF_W, "refused 9"),
    // f lacks a child in a dropped argument, and a node is left over behind one.
    ("02 01 80, 00 04 40 00 01 00", OF_W, "refused 10"),
    ("02 01 80, 00 05 40 00 02 00 00", OF_W, "refused 10"),
    // f(y3, y1): the numbers of those left keep their order.
    ("03 03 01 82 80, 00 05 40 00 00 02 00", OF_W, "declined 0 4"),
    ("03 03 01 80 82, 00 06 40 00 02 02 00 00", OF_W, "accepted 1 3"),
    // No run on what is dropped.
    ("01 01 00, 00 04 40 01 00 00", LEAVES_ONLY, "accepted 1 1"),
    ("01 01 00, 01 02 40 80, 00 04 41 01 00 00", LEAVES_ONLY, "accepted 1 1"),
    ("02 01 81, 00 05 40 01 00 00 00", LEAVES_ONLY, "accepted 1 1"),
    // Lone parameters of rank 3 and 4, and an identity of 16 calls.
    ("03 01 81, 00 05 40 00 02 00 00", OF_W, "declined 2 2"),
    ("04 01 83, 00 06 40 00 00 00 02 00", OF_W, "declined 2 2"),
    (
        "01 01 80, 01 03 40 40 80, 01 03 41 41 80, 01 03 42 42 80, 01 03 43 43 80, 00 02 44 00",
        OF_W,
        "accepted 1 1",
    ),
    // A rule that only a dropped argument calls; dropped in what is dropped.
    ("00 01 00, 02 01 80, 00 03 41 00 40", OF_W, "accepted 1 1"),
    ("02 01 80, 00 05 40 00 40 00 00", OF_W, "accepted 1 1"),
    // All parameters left out, and a start that is one call.
    ("04 01 00, 00 05 40 00 00 00 00", OF_W, "accepted 1 1"),
    ("01 01 80, 00 04 40 40 40 00", OF_W, "accepted 1 1"),
    // The last rule has rank 0 still, and 8 to 11 of each rule come before 13.
    ("01 01 80", OF_W, "refused 13"),
    ("02 01 80, 01 03 40 00 81", OF_W, "refused 9"),
];

/// The sheet of W's alphabet with these rules and this automaton.
pub fn sheet(rules: &str, automaton: &str) -> Vec<u8> {
    let w = Sheet::read(&rows::sheet("K1 W")).expect("a lawful sheet");
    joined(&[&w.alphabet_body, &bytes(rules), &bytes(automaton)])
}

impl Checker<'_> {
    pub fn named_wide(&mut self, random: &mut Random) -> Checked<()> {
        for (rules, automaton, _) in WIDE {
            self.sheet(random, &sheet(rules, automaton))?;
        }
        for rules in [long(128), long(129), enormous()] {
            self.sheet(random, &sheet(&rules, OF_W))?;
        }
        Ok(())
    }
}

/// So many nodes, of which one stands in the tree and most in a dropped argument: with 129 of them
/// the sheet is refused by 7.
pub fn long(nodes: usize) -> String {
    format!("02 01 80, 00 {:02X} 40 00 {}00", nodes - 1, "02 ".repeat(nodes - 4))
}

/// 2^40 times h over a in a dropped argument.
pub fn enormous() -> String {
    let doubled = (0..40).map(|rule| format!("01 03 {0:02X} {0:02X} 80, ", 0x40 + rule));
    format!("01 02 02 80, {}02 01 80, 00 04 69 00 68 00", doubled.collect::<String>())
}
