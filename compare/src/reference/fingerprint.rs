//! Lengths and polynomial hashes of words of terminals, for words too long to write down.

const PRIME: u128 = (1 << 61) - 1;
const BASE: u64 = 0x0123_4567_89AB_CDEF;

/// The fingerprint of a word: equal words have equal ones, and different words hardly ever.
#[derive(Clone, Copy, Debug, PartialEq, Eq)]
pub struct Fingerprint {
    /// Capped at 2^64 - 1.
    pub length: u64,
    hash: u64,
    /// The base to the power of the length.
    power: u64,
}

impl Fingerprint {
    pub const EMPTY: Fingerprint = Fingerprint { length: 0, hash: 0, power: 1 };

    pub fn of(terminal: u8) -> Fingerprint {
        Fingerprint { length: 1, hash: u64::from(terminal) + 1, power: BASE }
    }

    pub fn of_word(word: &[u8]) -> Fingerprint {
        let terminals = word.iter().map(|&terminal| Fingerprint::of(terminal));
        terminals.fold(Fingerprint::EMPTY, Fingerprint::then)
    }

    /// The fingerprint of this word with the other behind it.
    pub fn then(self, other: Fingerprint) -> Fingerprint {
        Fingerprint {
            length: self.length.saturating_add(other.length),
            hash: add(times(self.hash, other.power), other.hash),
            power: times(self.power, other.power),
        }
    }
}

fn add(left: u64, right: u64) -> u64 {
    ((u128::from(left) + u128::from(right)) % PRIME) as u64
}

fn times(left: u64, right: u64) -> u64 {
    ((u128::from(left) * u128::from(right)) % PRIME) as u64
}
