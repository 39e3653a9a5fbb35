//! Alphabets.

use super::random::Random;

/// A lawful alphabet with a terminal of rank 0, so that there are trees over it. Small ones come
/// often: automata then have transitions for all their terminals.
pub fn alphabet(random: &mut Random) -> Vec<u8> {
    let count = match random.below(8) {
        0 => random.between(1, 32),
        1 => *random.pick(&[1, 31, 32]),
        _ => random.between(2, 6),
    };
    let highest = *random.pick(&[0, 1, 1, 2, 2, 3, 3, 4, 4, 4]);
    let mut ranks: Vec<u8> = (0..count).map(|_| random.between(0, highest) as u8).collect();
    ranks[0] = highest as u8;
    ranks[count - 1] = 0;
    random.shuffle(&mut ranks);
    ranks
}

/// A lawful alphabet with terminals of ranks 0 and 1.
pub fn alphabet_with_chain(random: &mut Random) -> Vec<u8> {
    let mut ranks = alphabet(random);
    ranks.truncate(30);
    let place = random.below(ranks.len() + 1);
    ranks.insert(place, 1);
    ranks
}

/// The terminals of a rank.
pub fn of_rank(alphabet: &[u8], rank: u8) -> Vec<u8> {
    (0..alphabet.len() as u8).filter(|&terminal| alphabet[usize::from(terminal)] == rank).collect()
}

/// An alphabet that gets 3 or 4, or another one than the given.
pub fn damaged(random: &mut Random, alphabet: &[u8]) -> Vec<u8> {
    let mut ranks = alphabet.to_vec();
    let place = random.below(ranks.len());
    match random.below(6) {
        0 => ranks.clear(),
        1 => ranks.resize(random.between(33, 40), 1),
        2 => ranks[place] = *random.pick(&[5, 6, 0x80, 0xFF]),
        3 => ranks[place] = random.between(0, 4) as u8,
        4 => {
            ranks.remove(place);
        }
        _ => {
            ranks.resize(33.max(ranks.len()), 0);
            ranks[place] = 5;
        }
    }
    ranks
}
