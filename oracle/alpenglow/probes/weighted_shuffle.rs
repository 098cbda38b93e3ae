//! Reaches the tree of the weighted shuffle.

use rand::Rng;

use super::{WeightedShuffle, get_num_nodes_and_tree_size};
use crate::Stake;

/// A tree as it is built; the sums are those of node 0, then of node 1, and on.
pub struct Tree {
    pub num_nodes: usize,
    pub size: usize,
    pub sums: Vec<u64>,
    pub weight: u64,
    pub zeros: Vec<usize>,
}

pub fn tree(stakes: &[u64]) -> Tree {
    let shuffle = build(stakes);
    let sums = shuffle.tree.iter().flatten();
    Tree {
        num_nodes: shuffle.num_nodes,
        size: shuffle.tree.len(),
        sums: sums.map(|sum| sum.inner()).collect(),
        weight: shuffle.weight.inner(),
        zeros: shuffle.zeros,
    }
}

/// The number of nodes and the size of the tree, for a number of weights.
pub fn sizes(count: usize) -> (usize, usize) {
    get_num_nodes_and_tree_size(count)
}

pub fn order(stakes: &[u64], rng: &mut impl Rng) -> Vec<usize> {
    build(stakes).shuffle(rng).collect()
}

fn build(stakes: &[u64]) -> WeightedShuffle {
    WeightedShuffle::new(stakes.iter().map(|stake| Stake::new(*stake)))
}
