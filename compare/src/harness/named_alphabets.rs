//! The examples of R-5: forms that carry their alphabet, and alphabets given with them.

use super::checker::Checker;
use super::difference::Checked;
use super::lending::Lent;
use super::request::Request;
use crate::generate::random::Random;
use crate::hex::bytes;
use crate::reference::calls::joined;
use crate::reference::head::rules_behind;

/// What stands before the alphabet in a form and behind it: for a, for h(a) and for f(a, a), where
/// both h and f are terminal 01.
const A: [&str; 2] = ["0100 0000", "00 00 00 00 FFFF FFFF FFFF FFFF"];
const HA: [&str; 2] =
    ["0200 0100", "00 00 00 00 FFFF FFFF FFFF FFFF, 00 01 00 00 0000 FFFF FFFF FFFF"];
const FAA: [&str; 2] =
    ["0200 0100", "00 00 00 00 FFFF FFFF FFFF FFFF, 00 01 00 00 0000 0000 FFFF FFFF"];

/// The form of a one byte short, with one byte more, with its rule one byte off, without rules, and
/// with terminal 01.
const SHORT: [&str; 2] = ["0100 0000", "00 00 00 00 FFFF FFFF FFFF FF"];
const LONGER: [&str; 2] = ["0100 0000", "00 00 00 00 FFFF FFFF FFFF FFFF 00"];
const OFF: [&str; 2] = ["0100 0000", "00 00 00 FFFF FFFF FFFF FFFF 00"];
const BARE: [&str; 2] = ["0100 0000", ""];
const SECOND: [&str; 2] = ["0100 0000", "00 01 00 00 FFFF FFFF FFFF FFFF"];

/// The given alphabet, the terminal count and the ranks that a form carries, what stands around
/// them, and what every call on the form says: 0 for an answer. W's alphabet is 00 02 01.
pub const ALPHABETS: [(&str, &str, [&str; 2], u8); 28] = [
    ("00 02 01", "03 00 02 01", A, 0),
    // Ranks in another order, terminals less, one more, and another rank of one terminal.
    ("00 01 02", "03 00 02 01", A, 28),
    ("00 02", "03 00 02 01", A, 28),
    ("00", "03 00 02 01", A, 28),
    ("00 02 01 00", "03 00 02 01", A, 28),
    ("00 02 02", "03 00 02 01", A, 28),
    ("01 02 01", "03 00 02 01", A, 28),
    // What is given is looked at first.
    ("", "03 00 02 01", A, 3),
    ("", "03 00 02 05", A, 3),
    ("05 02 01", "03 00 02 01", A, 4),
    ("00 02 05", "03 00 02 05", A, 4),
    // The rules are read against the ranks that the form carries.
    ("00 01", "02 00 01", HA, 0),
    ("00 02", "02 00 01", HA, 28),
    ("00 02", "02 00 02", FAA, 0),
    ("00 02", "02 00 01", FAA, 18),
    ("00 01", "02 00 02", FAA, 28),
    ("02 00", "01 02", SECOND, 18),
    // No terminal, with and without rank bytes; a terminal count that the ranks do not fit.
    ("00", "00", A, 18),
    ("00 02 01", "00 00 02 01", A, 18),
    ("00 02", "02 00 02 01", A, 18),
    ("00 02 01", "04 00 02 01", A, 18),
    ("00 02 01", "FF 00 02 01", A, 18),
    // A rank over 4, which is not told as 4.
    ("00 02 01", "03 00 02 05", A, 18),
    // Other lengths, and a form as it was before R-5.
    ("00 02 01", "03 00 02 01", SHORT, 18),
    ("00 02 01", "03 00 02 01", LONGER, 18),
    ("00 02 01", "03 00 02 01", OFF, 18),
    ("00 02 01", "03 00 02", BARE, 18),
    ("00 02 01", "", A, 18),
];

/// The form that carries this alphabet.
pub fn carrying(alphabet: &str, [head, rules]: [&str; 2]) -> Vec<u8> {
    bytes(&[head, alphabet, rules].concat())
}

/// The form of so many equal leaves over so many terminals of rank 0.
pub fn leaves(count: u16, terminals: u8) -> Vec<u8> {
    let [low, high] = count.to_le_bytes();
    let head = [&[low, high, 0, 0, terminals], &vec![0; terminals.into()][..]].concat();
    [head, bytes(A[1]).repeat(count.into())].concat()
}

/// A transition from state 0 to itself that is lawful over the alphabet, where this is lawful.
pub fn transition_over(alphabet: &[u8]) -> Vec<u8> {
    let used = 2 + usize::from(alphabet.first().map_or(0, |&rank| rank.min(4)));
    [vec![0; used], vec![0xFF; 6 - used]].concat()
}

impl Checker<'_> {
    pub fn named_alphabets(&mut self, random: &mut Random) -> Checked<()> {
        for (given, carried, around, _) in ALPHABETS {
            self.with_slices(random, &bytes(given), &carrying(carried, around))?;
        }
        for terminals in [1, 31, 32, 33] {
            for given in [&[0; 1][..], &[0; 31], &[0; 32], &[0; 33]] {
                self.with_slices(random, given, &leaves(1, terminals))?;
            }
            self.with_slices(random, &[0; 32], &leaves(2048, terminals))?;
        }
        for terminals in [1, 32] {
            let sheet = joined(&[&vec![0; terminals], &[0, 1, 0], &[1, 1]]);
            self.sheet(random, &sheet)?;
        }
        Ok(())
    }

    /// Every call on the form, with slices that suffice and with slices that do not: 18 and 28 come
    /// before 19 to 21, and what is wrong with an automaton or a new transition comes before both.
    fn with_slices(&mut self, random: &mut Random, alphabet: &[u8], form: &[u8]) -> Checked<()> {
        let count = rules_behind(form);
        let missing = [1, 0, 0xFF, 0, 0xFF, 0xFF, 0xFF, 0xFF];
        let lawful = transition_over(alphabet);
        for automaton in [&[1, 0][..], &[1], &[0, 0], &missing] {
            let evaluate = Request::Evaluate { alphabet, automaton, form };
            let adds = [&lawful[..], &lawful[..5], &missing[2..]].map(|transition| Request::Add {
                alphabet,
                form,
                automaton,
                transition,
            });
            for numbers in [0, count.saturating_sub(1), count + 1] {
                for request in [&[evaluate][..], &adds].concat() {
                    self.request(request, Lent::new(random, 0, numbers))?;
                }
            }
        }
        let size = Request::Size { alphabet, form };
        let labels = [0, 2, u64::MAX].map(|position| Request::Label { alphabet, form, position });
        let unfold = Request::Unfold { alphabet, form };
        let rules = [0, count, 0xFFFF].map(|number| Request::ReadRule { alphabet, form, number });
        let requests = [&[size, unfold][..], &labels, &rules].concat();
        for numbers in [0, (2 * count).saturating_sub(1), 2 * count] {
            for &request in &requests {
                for room in [0, 3] {
                    self.request(request, Lent::new(random, room, numbers))?;
                }
            }
        }
        Ok(())
    }
}
