//! Sheets of the old kind made into wider ones.

use super::alphabets;
use super::plan::Plan;
use super::random::Random;

/// Puts a leaf for some parameters of a lawful plan, and makes some rules a lone parameter. In some
/// plans there are few of both, so that large trees stay large.
pub fn thin(random: &mut Random, plan: &mut Plan) {
    let leaf = alphabets::of_rank(&plan.alphabet, 0)[0];
    let times = *random.pick(&[2, 4, 8, 16]);
    for rule in &mut plan.rules {
        for node in rule.nodes.iter_mut().filter(|node| **node >= 0x80) {
            if random.one_in(times) {
                *node = leaf;
            }
        }
        if rule.rank > 0 && random.one_in(2 * times) {
            rule.nodes = vec![0x80 + random.below(rule.rank.into()) as u8];
        }
    }
}
