//! Damage to bytes, whatever they mean.

use super::random::Random;

/// One change: a byte, a cut, an extension, two bytes exchanged, a byte gone or put in.
pub fn damaged(random: &mut Random, bytes: &[u8]) -> Vec<u8> {
    let mut bytes = bytes.to_vec();
    if bytes.is_empty() {
        return random.bytes(1);
    }
    let place = random.below(bytes.len());
    match random.below(9) {
        0 => bytes.truncate(place),
        1 => {
            let more = random.between(1, 8);
            bytes.extend(random.bytes(more));
        }
        2 => {
            let other = random.below(bytes.len());
            bytes.swap(place, other);
        }
        3 => {
            bytes.remove(place);
        }
        4 => bytes.insert(place, random.byte()),
        5 => bytes[place] = random.byte(),
        6 => bytes[place] ^= 1 << random.below(8),
        7 => bytes[place] = bytes[place].wrapping_add(1),
        _ => bytes[place] = bytes[place].wrapping_sub(1),
    }
    bytes
}
