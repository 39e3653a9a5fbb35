//! Whether a word of ranks is one whole tree in preorder.

/// Counts from the last node to the first: a node of rank k takes k of the trees behind it and
/// leaves one.
pub fn is_one_tree(ranks: impl DoubleEndedIterator<Item = usize>) -> bool {
    let trees = ranks.rev().try_fold(0_usize, |trees, rank| Some(trees.checked_sub(rank)? + 1));
    trees == Some(1)
}
