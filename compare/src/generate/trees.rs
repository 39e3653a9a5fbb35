//! Preorder trees over an alphabet.

use super::random::Random;

/// A tree of at most this size over an alphabet with a terminal of rank 0; of just this size where
/// there is a terminal of rank 1.
pub fn tree(random: &mut Random, alphabet: &[u8], size: usize) -> Vec<u8> {
    let mut by_rank: [Vec<u8>; 5] = Default::default();
    for (terminal, &rank) in alphabet.iter().enumerate() {
        by_rank[usize::from(rank)].push(terminal as u8);
    }
    let mut nodes = Vec::new();
    let mut open = 1;
    while open > 0 {
        // Every open place wants one node at least.
        let room = size.saturating_sub(nodes.len() + open).min(4);
        let low = usize::from(open == 1);
        let ranks: Vec<usize> = (low..=room).filter(|&rank| !by_rank[rank].is_empty()).collect();
        let rank = if ranks.is_empty() { 0 } else { *random.pick(&ranks) };
        nodes.push(*random.pick(&by_rank[rank]));
        open = open - 1 + rank;
    }
    nodes
}

/// A size, often near one of the limits.
pub fn size(random: &mut Random) -> usize {
    match random.below(8) {
        0 => random.between(126, 130),
        1 => random.between(4094, 4098),
        2 => random.between(1, 4096),
        3 => random.between(1, 3),
        _ => random.between(1, 128),
    }
}
