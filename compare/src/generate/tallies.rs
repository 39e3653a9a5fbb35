//! Candidates, and the counts of tallies that they are marked with.

use super::random::Random;

/// A candidate's number, mostly one of the sixteen.
pub fn candidate(random: &mut Random) -> usize {
    if random.one_in(6) { over(random) } else { random.below(16) }
}

/// A number over 15, often with the low bits of a candidate's.
fn over(random: &mut Random) -> usize {
    let low = random.below(16) as u64;
    let base = *random.pick(&[16, 256, 1 << 16, 1 << 32]);
    *random.pick(&[base, base + 1, base + low, 255, u64::MAX]) as usize
}

/// The counts of a slice of this length, to mark this candidate with: some are full, of the
/// candidate itself, of the others or behind the tally.
pub fn counts(random: &mut Random, candidate: usize, length: usize) -> Vec<u32> {
    let mut counts: Vec<u32> = match random.below(4) {
        0 => vec![0; length],
        1 => vec![u32::MAX - 1; length],
        2 => vec![u32::MAX; length],
        _ => (0..length).map(|_| spare(random)).collect(),
    };
    let own = counts.chunks_mut(3).nth(candidate).unwrap_or_default();
    own.fill_with(|| spare(random));
    if random.one_in(3) {
        fill_one(random, own);
    }
    match random.below(4) {
        0 => fill_one(random, &mut counts),
        1 => fill_last(&mut counts),
        _ => {}
    }
    counts
}

/// A count that has room for one more.
fn spare(random: &mut Random) -> u32 {
    let any = random.word() as u32;
    *random.pick(&[0, 0, 1, any.min(u32::MAX - 1), u32::MAX - 1])
}

/// Makes one of the counts full.
fn fill_one(random: &mut Random, counts: &mut [u32]) {
    if !counts.is_empty() {
        counts[random.below(counts.len())] = u32::MAX;
    }
}

/// Makes the last count full, which lies behind the tally where the slice is longer.
fn fill_last(counts: &mut [u32]) {
    if let Some(last) = counts.last_mut() {
        *last = u32::MAX;
    }
}
