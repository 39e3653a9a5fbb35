//! The examples of R-6: how many rules a form made of a sheet may have, and so what making and
//! marking ask for.

use super::checker::Checker;
use super::difference::Checked;
use super::named_wide::{OF_W, sheet};
use crate::generate::random::Random;

/// Rules over W's alphabet, where a is 00, f is 01 and h is 02, and the sum of their nodes: 2 for
/// each terminal node and 4n - 3 for each call of a rule of rank n above 0.
pub const ROOMS: [(&str, usize); 16] = [
    // W's own rules.
    ("01 03 02 02 80, 02 04 01 40 81 80, 00 04 41 00 40 00", 17),
    ("00 01 00", 2),
    // Calls of rank 0 count nothing, also where the start is one.
    ("00 01 00, 00 03 01 40 40", 4),
    ("00 01 00, 00 01 40, 00 01 41", 2),
    // Calls of each rank above 0, of rules that drop every argument.
    ("01 01 00, 00 02 40 00", 5),
    ("02 01 00, 00 03 40 00 00", 11),
    ("03 01 00, 00 04 40 00 00 00", 17),
    ("04 01 00, 00 05 40 00 00 00 00", 23),
    // A lone parameter counts nothing, and the call of it counts by its rank as written.
    ("04 01 80, 00 05 40 00 00 00 00", 21),
    ("01 01 80, 00 02 40 00", 3),
    // h(a) is dropped and counts as written.
    ("02 01 80, 00 04 40 00 02 00", 11),
    // The same through a callee, which is handed what it drops.
    ("02 01 80, 02 03 40 80 81, 00 04 41 00 02 00", 16),
    // Rules that are never called: with terminals, with a call, and with parameters only.
    ("00 02 02 00, 00 01 00", 6),
    ("02 01 80, 01 03 40 80 00, 00 01 00", 9),
    ("04 01 83, 00 01 00", 2),
    // Dropped in what is dropped.
    ("02 01 80, 00 05 40 00 40 00 00", 16),
];

/// The largest sum that a sheet can have: 31 calls of rank 4 in one another's arguments, and
/// terminals else.
pub const LARGEST: usize = 597;

/// Rules of that sum over W's alphabet.
pub fn largest() -> String {
    format!("04 01 00, 00 7F 02 02 {}{}", "40 ".repeat(31), "00 ".repeat(94))
}

impl Checker<'_> {
    pub fn named_room(&mut self, random: &mut Random) -> Checked<()> {
        for (rules, _) in ROOMS {
            self.sheet(random, &sheet(rules, OF_W))?;
        }
        self.sheet(random, &sheet(&largest(), OF_W))
    }
}
