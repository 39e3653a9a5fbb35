//! The head of a form: rule count and start, two bytes each, then the alphabet that the form is
//! over, as one byte for the terminal count and one for each terminal's rank.

use super::alphabet::Alphabet;

/// Where the terminal count lies.
pub const TERMINALS_AT: usize = 4;

/// Where the ranks begin.
pub const RANKS_AT: usize = 5;

/// The length of the longest form: 32 terminals and 2,048 rules.
pub const LONGEST_FORM: usize = RANKS_AT + 32 + 12 * 2048;

pub struct Head {
    pub count: usize,
    pub start: usize,
    pub alphabet: Alphabet,
}

impl Head {
    /// The head, if it is whole and has 1 to 32 terminals of ranks 0 to 4.
    pub fn read(form: &[u8]) -> Option<Head> {
        let alphabet = Alphabet::read(ranks(form)?).ok()?;
        Some(Head { count: word(form, 0).into(), start: word(form, 2).into(), alphabet })
    }
}

/// The length of a head with so many terminals.
pub fn length(terminals: usize) -> usize {
    RANKS_AT + terminals
}

/// Where the rules begin by the terminal count that the bytes have, whether they are a lawful head
/// or not.
pub fn end(form: &[u8]) -> usize {
    length(form.get(TERMINALS_AT).copied().unwrap_or(0).into())
}

/// The rank bytes of such a head, if all of them are there.
pub fn ranks(form: &[u8]) -> Option<&[u8]> {
    form.get(RANKS_AT..end(form))
}

/// How many whole rules lie behind such a head; in a valid form these are all its rules.
pub fn rules_behind(form: &[u8]) -> usize {
    form.len().saturating_sub(end(form)) / 12
}

/// The two-byte number at a place.
pub fn word(bytes: &[u8], at: usize) -> u16 {
    u16::from_le_bytes([bytes[at], bytes[at + 1]])
}
